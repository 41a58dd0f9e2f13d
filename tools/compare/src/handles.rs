//! Handles with other numbers than those that a header gave: most do not fit, some do.

use crate::ffi::Index;
use gimli::random::Random;

/// The handle with one or two numbers changed. `len` is the section's.
pub fn wrong(random: &mut Random, index: Index, len: usize) -> Index {
    let mut index = index;
    for _ in 0..random.pick(&[1, 1, 1, 2]) {
        change(random, &mut index, len);
    }
    index
}

fn change(random: &mut Random, index: &mut Index, len: usize) {
    match random.below(12) {
        0 => index.format = random.pick(&[0, 1, 2, 3, 5, 7, 9, 12, 16, 0x104, u32::MAX]),
        1 => index.format = if index.format == 4 { 8 } else { 4 },
        2 => index.begin = place(random, index.begin, len),
        3 => index.end = place(random, index.end, len),
        4 => std::mem::swap(&mut index.begin, &mut index.end),
        5 => index.compile_unit_count = count(random, index.compile_unit_count),
        6 => index.local_type_unit_count = count(random, index.local_type_unit_count),
        7 => index.foreign_type_unit_count = count(random, index.foreign_type_unit_count),
        8 => index.bucket_count = count(random, index.bucket_count),
        9 => index.name_count = count(random, index.name_count),
        10 => index.abbrev_table_size = count(random, index.abbrev_table_size),
        // Two counts whose sum, or whose bytes, would be too large for 32 bits.
        _ => {
            index.local_type_unit_count = random.pick(&[0x4000_0000, 0x8000_0000, u32::MAX]);
            index.foreign_type_unit_count = random.pick(&[0x2000_0000, 0x8000_0000, u32::MAX]);
        }
    }
}

/// Another place: near the one given, anywhere, or past the section.
fn place(random: &mut Random, place: usize, len: usize) -> usize {
    match random.below(8) {
        0 => place.wrapping_add(1),
        1 => place.wrapping_sub(1),
        2 => random.below(len + 1),
        3 => place.wrapping_add(random.between(2, 40)),
        4 => place.wrapping_sub(random.between(2, 40)),
        5 => random.pick(&[len, len + 1, 0]),
        6 => random.pick(&[usize::MAX, usize::MAX - 7, 1 << 63, 1 << 32, (1 << 31) - 1, 1 << 31]),
        _ => random.next() as usize,
    }
}

/// Another count: a little more or less, none, or far too large.
fn count(random: &mut Random, count: u32) -> u32 {
    match random.below(6) {
        0 => count.wrapping_add(1),
        1 => count.wrapping_sub(1),
        2 => count.wrapping_add(random.between(2, 9) as u32),
        3 => 0,
        4 => random.pick(&[u32::MAX, 0x8000_0000, 0x4000_0000, 0x2000_0000, 0x1_0000]),
        _ => random.below(12) as u32,
    }
}
