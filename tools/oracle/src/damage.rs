//! Damaged sections: a valid one with something wrong in it. Some damages are done to the parts, so that all the rest still fits,
//! and some to the bytes. A section that has nothing of the kind stays as it is, and the program then takes another one.

use crate::bytes::{Writer, leb128};
use crate::case::Case;
use crate::model::{COUNTS, Count, Index, Section};
use crate::padded::{self, Number, Pool};
use crate::random::Random;

/// A damage.
pub type Damage = fn(&mut Random, Section) -> Case;

/// The damages. Those of the abbreviation table stand twice, since they have the most ways to go wrong.
const DAMAGES: [Damage; 17] = [
    cut_with_length_kept,
    cut_with_length_adapted,
    byte_changed,
    header_byte_changed,
    table_byte_changed,
    count_wrong,
    count_much_too_large,
    version_wrong,
    length_reserved,
    length_wrong,
    bad_leb128,
    bad_leb128,
    zero_in_the_table,
    zero_in_the_table,
    table_cut,
    string_offset_wrong,
    strings_without_zero,
];

/// Damages of what entries are read from.
const ENTRY_DAMAGES: [Damage; 6] = [
    entry_offset_wrong,
    pool_byte_changed,
    pool_bad_leb128,
    pool_cut,
    form_unknown,
    declaration_missing,
];

/// Damages of hash tables.
const TABLE_DAMAGES: [Damage; 2] = [start_changed, stored_hash_changed];

/// All of them.
pub fn all() -> impl Iterator<Item = Damage> {
    DAMAGES.into_iter().chain(ENTRY_DAMAGES).chain(TABLE_DAMAGES)
}

/// No damages: numbers that have more bytes than they need, and all the rest fits. The section stays valid.
pub const PADDINGS: [Damage; 2] = [table_padded, pool_padded];

/// Damages of such numbers.
pub const PADDED_DAMAGES: [Damage; 6] = [
    table_bit_beyond,
    pool_bit_beyond,
    table_cut_in_number,
    pool_cut_in_number,
    table_cut_behind_bit,
    pool_cut_behind_bit,
];

/// One of the indexes.
fn some_index<'a>(random: &mut Random, section: &'a mut Section) -> &'a mut Index {
    let which = random.below(section.indexes.len());
    &mut section.indexes[which]
}

/// Overwrites bytes from a place on.
fn overwrite(bytes: &mut [u8], place: usize, with: &[u8]) {
    bytes[place..place + with.len()].copy_from_slice(with);
}

/// The section is cut anywhere, and no length says so.
fn cut_with_length_kept(random: &mut Random, section: Section) -> Case {
    let (mut bytes, _) = section.encode();
    let len = bytes.len();
    bytes.truncate(random.below(len));
    Case::of(&section, bytes)
}

/// The section is cut anywhere, and the length of the index that is cut is made to fit: a part of the index is missing.
fn cut_with_length_adapted(random: &mut Random, section: Section) -> Case {
    let (bytes, starts) = section.encode();
    let which = random.below(starts.len());
    let body = starts[which] + section.indexes[which].length_bytes();
    let end = starts.get(which + 1).copied().unwrap_or(bytes.len());
    cut_at(&section, which, random.between(body, end - 1))
}

/// The section cut at a place behind the length field of an index, and that length made to fit.
fn cut_at(section: &Section, which: usize, place: usize) -> Case {
    let (mut bytes, starts) = section.encode();
    let index = &section.indexes[which];
    let body = starts[which] + index.length_bytes();
    bytes.truncate(place);
    let field = index.length_field(section.order, (place - body) as u64);
    overwrite(&mut bytes, starts[which], &field);
    Case::of(section, bytes)
}

/// A section of one index, cut at every byte of it. Where the cut leaves a length field it is made to fit.
pub fn cut_everywhere(section: &Section) -> Vec<Case> {
    let (bytes, _) = section.encode();
    let body = section.indexes[0].length_bytes();
    let cut = |place: usize| match place < body {
        true => Case::of(section, bytes[..place].to_vec()),
        false => cut_at(section, 0, place),
    };
    (0..bytes.len()).map(cut).collect()
}

/// Any byte is another one.
fn byte_changed(random: &mut Random, section: Section) -> Case {
    let (mut bytes, _) = section.encode();
    let place = random.below(bytes.len());
    bytes[place] = other_byte(random, bytes[place]);
    Case::of(&section, bytes)
}

/// A byte of a header is another one.
fn header_byte_changed(random: &mut Random, section: Section) -> Case {
    let (mut bytes, starts) = section.encode();
    let which = random.below(starts.len());
    let place = starts[which] + random.below(section.indexes[which].length_bytes() + 32);
    bytes[place] = other_byte(random, bytes[place]);
    Case::of(&section, bytes)
}

/// A byte of an abbreviation table is another one. Its number stays one number or becomes a part of the next.
fn table_byte_changed(random: &mut Random, mut section: Section) -> Case {
    let index = some_index(random, &mut section);
    let mut numbers = numbers_of(index);
    if !numbers.is_empty() {
        let which = random.below(numbers.len());
        let number = &mut numbers[which];
        let place = random.below(number.len());
        number[place] = other_byte(random, number[place]);
    }
    Case::encoded(&section)
}

fn other_byte(random: &mut Random, byte: u8) -> u8 {
    match random.below(4) {
        0 => byte.wrapping_add(1),
        1 => byte.wrapping_sub(1),
        2 => byte ^ 0x80,
        _ => byte ^ random.between(1, 255) as u8,
    }
}

/// Every LEB128 number of an abbreviation table.
fn numbers_of(index: &mut Index) -> Vec<&mut Vec<u8>> {
    let mut numbers = Vec::new();
    for declaration in &mut index.declarations {
        numbers.push(&mut declaration.code);
        numbers.push(&mut declaration.tag);
        for (name, form) in &mut declaration.pairs {
            numbers.push(name);
            numbers.push(form);
        }
    }
    numbers
}

/// A count is off by a little: the parts after it are cut at other places.
fn count_wrong(random: &mut Random, mut section: Section) -> Case {
    let count = random.pick(&COUNTS);
    let index = some_index(random, &mut section);
    let value = index.true_count(count);
    let wrong = match random.below(4) {
        0 => value.saturating_sub(1),
        1 => value + random.between(2, 9) as u32,
        2 if value > 0 => 0,
        _ => value + 1,
    };
    index.wrong.push((count, wrong));
    Case::encoded(&section)
}

/// A count is far too large: its bytes would not fit into 32 bits, or just do.
fn count_much_too_large(random: &mut Random, mut section: Section) -> Case {
    let count = random.pick(&COUNTS);
    let wrong = random.pick(&[u32::MAX, u32::MAX - 2, 0x8000_0000, 0x4000_0000, 0x2000_0000, 0x1_0000, 1000]);
    some_index(random, &mut section).wrong.push((count, wrong));
    Case::encoded(&section)
}

fn version_wrong(random: &mut Random, mut section: Section) -> Case {
    some_index(random, &mut section).version = random.pick(&[0, 1, 2, 3, 4, 6, 0x0500, 0x0105, 0xffff]);
    Case::encoded(&section)
}

/// A length that DWARF 5 reserves; 0xffffffff has a 64-bit length behind it.
fn length_reserved(random: &mut Random, section: Section) -> Case {
    let (mut bytes, starts) = section.encode();
    let place = random.pick(&starts);
    let mut field = Writer::new(section.order);
    field.u32(random.pick(&[0xffff_fff0, 0xffff_fff0, 0xffff_fff1, 0xffff_fff8, 0xffff_fffe, 0xffff_ffff]));
    overwrite(&mut bytes, place, &field.bytes);
    Case::of(&section, bytes)
}

/// A length that is off: by a little, so that the next header begins elsewhere, or by much.
fn length_wrong(random: &mut Random, section: Section) -> Case {
    let (mut bytes, starts) = section.encode();
    let which = random.below(starts.len());
    let index = &section.indexes[which];
    let body = starts[which] + index.length_bytes();
    let end = starts.get(which + 1).copied().unwrap_or(bytes.len());
    let length = (end - body) as u64;
    let wrong = match random.below(6) {
        0 => length + 1,
        1 => length - 1,
        2 => length - random.below(length as usize) as u64,
        3 => length + random.between(2, 40) as u64,
        4 => 0,
        _ if index.wide => random.pick(&[u64::MAX, 1 << 63, 0xffff_ffff]),
        _ => 0xffff_ffef,
    };
    overwrite(&mut bytes, starts[which], &index.length_field(section.order, wrong));
    Case::of(&section, bytes)
}

/// The bytes of a number in an abbreviation table are no number, since it is too large, or a padded 0 or 1. As a code, some that are
/// too large for 16 bits are numbers, and what follows them is wrong then.
fn bad_leb128(random: &mut Random, mut section: Section) -> Case {
    let bad: Vec<u8> = match random.below(7) {
        0 => [vec![0xff; 9], vec![2]].concat(),
        1 => [vec![0x80; 9], vec![0x80, 0]].concat(),
        2 => [vec![0xff; 9], vec![1]].concat(),
        3 => vec![0xff, 0xff, 4],
        4 => vec![0x80, 0x80, 0x80, 0],
        5 => vec![0x80, 0x80, 4],
        _ => vec![0x81, 0x80, 0],
    };
    let index = some_index(random, &mut section);
    let mut numbers = numbers_of(index);
    if numbers.is_empty() {
        index.table_end = bad;
    } else {
        let which = random.below(numbers.len());
        *numbers[which] = bad;
    }
    Case::encoded(&section)
}

/// A 0 where none may stand: the tag, the name or the form; or a name or a form behind the last pair's 0. A code 0 ends the table
/// early.
fn zero_in_the_table(random: &mut Random, mut section: Section) -> Case {
    let index = some_index(random, &mut section);
    let count = index.declarations.len();
    if count == 0 {
        return table_cut(random, section);
    }
    let declaration = &mut index.declarations[random.below(count)];
    let zero = random.pick(&[vec![0], vec![0x80, 0], vec![0x80, 0x80, 0]]);
    let pair = random.below(declaration.pairs.len());
    let last = pair + 1 == declaration.pairs.len();
    match random.below(6) {
        0 => declaration.code = zero,
        1 | 2 => declaration.tag = zero,
        3 | 4 if last => declaration.pairs[pair] = (zero, vec![0x13]),
        _ if last => declaration.pairs[pair] = (vec![3], zero),
        3 | 4 => declaration.pairs[pair].0 = zero,
        _ => declaration.pairs[pair].1 = zero,
    }
    Case::encoded(&section)
}

/// The abbreviation table ends early or late: inside a declaration, or in the pool.
fn table_cut(random: &mut Random, mut section: Section) -> Case {
    let index = some_index(random, &mut section);
    let len = index.table().len();
    let wrong = match random.below(4) {
        0 => len + random.between(1, 1 + index.pool.len()),
        _ => random.between(0, len),
    };
    if random.once_in(2) {
        index.table_end.clear();
    }
    index.wrong.push((Count::AbbreviationBytes, wrong as u32));
    Case::encoded(&section)
}

/// A string's offset is the end of .debug_str, or past it.
fn string_offset_wrong(random: &mut Random, mut section: Section) -> Case {
    let end = section.strings.len() as u64;
    let index = some_index(random, &mut section);
    let count = index.string_offsets.len();
    if count > 0 {
        let largest = if index.wide { u64::MAX } else { u32::MAX.into() };
        index.string_offsets[random.below(count)] = random.pick(&[end, end + 1, end + 1000, largest]);
    }
    Case::encoded(&section)
}

/// .debug_str ends before its last zero byte, or it is empty.
fn strings_without_zero(random: &mut Random, mut section: Section) -> Case {
    if random.once_in(4) {
        section.strings.clear();
    } else {
        while section.strings.last() == Some(&0) {
            section.strings.pop();
        }
    }
    Case::encoded(&section)
}

/// An entry offset is another one in the pool, the pool's end, or past it.
fn entry_offset_wrong(random: &mut Random, mut section: Section) -> Case {
    let index = some_index(random, &mut section);
    let count = index.entry_offsets.len();
    if count > 0 {
        let end = index.pool.len() as u64;
        let inside = random.below(index.pool.len() + 1) as u64;
        let largest = if index.wide { u64::MAX } else { u32::MAX.into() };
        index.entry_offsets[random.below(count)] = random.pick(&[inside, inside, end, end + 1, largest]);
    }
    Case::encoded(&section)
}

/// A byte of the pool is another one: a code or a value.
fn pool_byte_changed(random: &mut Random, mut section: Section) -> Case {
    let pool = &mut some_index(random, &mut section).pool;
    if !pool.is_empty() {
        let place = random.below(pool.len());
        pool[place] = other_byte(random, pool[place]);
    }
    Case::encoded(&section)
}

/// Bytes that are no number, padding, or a number that no table is likely to declare, stand before some byte of the pool or at its end.
fn pool_bad_leb128(random: &mut Random, mut section: Section) -> Case {
    let bad = random.pick(&[[vec![0xff; 9], vec![2]].concat(), vec![0x80; 11], [vec![0xff; 9], vec![0]].concat()]);
    let pool = &mut some_index(random, &mut section).pool;
    let place = random.below(pool.len() + 1);
    pool.splice(place..place, bad);
    Case::encoded(&section)
}

/// The pool ends early, and the length of its index fits.
fn pool_cut(random: &mut Random, mut section: Section) -> Case {
    let pool = &mut some_index(random, &mut section).pool;
    pool.truncate(random.below(pool.len() + 1));
    Case::encoded(&section)
}

/// An attribute of a declaration has a form that no entry can have.
fn form_unknown(random: &mut Random, mut section: Section) -> Case {
    let mut forms = Vec::new();
    for declaration in &mut some_index(random, &mut section).declarations {
        let last = declaration.pairs.len() - 1;
        forms.extend(declaration.pairs[..last].iter_mut().map(|(_, form)| form));
    }
    if !forms.is_empty() {
        let which = random.below(forms.len());
        *forms[which] = leb128(random.pick(&[0x01, 0x0e, 0x1d, 0x1001]), 1);
    }
    Case::encoded(&section)
}

/// A declaration is not there: its entries have none, or that of another declaration of its code.
fn declaration_missing(random: &mut Random, mut section: Section) -> Case {
    let declarations = &mut some_index(random, &mut section).declarations;
    if !declarations.is_empty() {
        declarations.remove(random.below(declarations.len()));
    }
    Case::encoded(&section)
}

/// One of the indexes that have a hash table with names.
fn some_table<'a>(random: &mut Random, section: &'a mut Section) -> Option<&'a mut Index> {
    let mut tables: Vec<&mut Index> = section.indexes.iter_mut().filter(|index| !index.hashes.is_empty()).collect();
    if tables.is_empty() {
        return None;
    }
    Some(tables.swap_remove(random.below(tables.len())))
}

/// The start of a bucket is another one: none, one too early or too late, any name's, or past the last name.
fn start_changed(random: &mut Random, mut section: Section) -> Case {
    let Some(index) = some_table(random, &mut section) else {
        return Case::encoded(&section);
    };
    let names = index.hashes.len() as u32;
    let bucket = random.below(index.buckets.len());
    let start = index.buckets[bucket];
    let any = random.between(1, names as usize) as u32;
    let others = [0, start.wrapping_sub(1), start + 1, any, any, names + 1, names + 2, u32::MAX];
    let others: Vec<u32> = others.into_iter().filter(|other| *other != start).collect();
    index.buckets[bucket] = random.pick(&others);
    Case::encoded(&section)
}

/// The hash of a name is another one: the next or the one before, with another highest bit, another name's, or any.
fn stored_hash_changed(random: &mut Random, mut section: Section) -> Case {
    let Some(index) = some_table(random, &mut section) else {
        return Case::encoded(&section);
    };
    let hashes = &mut index.hashes;
    let name = random.below(hashes.len());
    let hash = hashes[name];
    let (another, any) = (random.pick(hashes), random.next() as u32);
    let others = [hash.wrapping_add(1), hash.wrapping_sub(1), hash ^ 0x8000_0000, another, any];
    let others: Vec<u32> = others.into_iter().filter(|other| *other != hash).collect();
    hashes[name] = random.pick(&others);
    Case::encoded(&section)
}

/// Numbers of an abbreviation table are padded.
fn table_padded(random: &mut Random, section: Section) -> Case {
    in_table(random, section, pad_some)
}

/// Numbers of a pool are padded.
fn pool_padded(random: &mut Random, section: Section) -> Case {
    in_pool(random, section, pad_some)
}

/// A padded number of an abbreviation table has a set bit beyond its width.
fn table_bit_beyond(random: &mut Random, section: Section) -> Case {
    in_table(random, section, bit_beyond)
}

/// A padded number of a pool has a set bit beyond its width.
fn pool_bit_beyond(random: &mut Random, section: Section) -> Case {
    in_pool(random, section, bit_beyond)
}

/// An abbreviation table ends inside or right behind a padded number.
fn table_cut_in_number(random: &mut Random, section: Section) -> Case {
    in_table(random, section, cut_in_number)
}

/// A pool ends inside or right behind a padded number.
fn pool_cut_in_number(random: &mut Random, section: Section) -> Case {
    in_pool(random, section, cut_in_number)
}

/// An abbreviation table ends behind a byte that has a set bit beyond the width of its number.
fn table_cut_behind_bit(random: &mut Random, section: Section) -> Case {
    in_table(random, section, cut_behind_bit)
}

/// A pool ends behind a byte that has a set bit beyond the width of its number.
fn pool_cut_behind_bit(random: &mut Random, section: Section) -> Case {
    in_pool(random, section, cut_behind_bit)
}

/// A table or a pool ends behind so many bytes of one of its numbers.
struct Cut {
    which: usize,
    bytes: usize,
}

/// What is done to the numbers of a table or of a pool, and where that is cut then.
type Change = fn(&mut Random, &mut [Number]) -> Option<Cut>;

/// Changes numbers of an abbreviation table. Where it is cut, what is behind the cut belongs to the pool.
fn in_table(random: &mut Random, mut section: Section, change: Change) -> Case {
    let index = some_index(random, &mut section);
    let mut numbers = padded::table(index);
    if let Some(cut) = change(random, &mut numbers) {
        let before: usize = numbers[..cut.which].iter().map(Number::size).sum();
        index.wrong.push((Count::AbbreviationBytes, (before + cut.bytes) as u32));
    }
    Case::encoded(&section)
}

/// Changes numbers of a pool. Offsets of names and parents are those of the pool that is not cut.
fn in_pool(random: &mut Random, mut section: Section, change: Change) -> Case {
    let order = section.order;
    let index = some_index(random, &mut section);
    if let Some(mut pool) = Pool::of(order, index) {
        let cut = change(random, &mut pool.numbers());
        if let (Some(places), Some(cut)) = (pool.put(index), cut) {
            index.pool.truncate(places[cut.which] + cut.bytes);
        }
    }
    Case::encoded(&section)
}

/// Pads one of the numbers, about half of them, or all.
fn pad_some(random: &mut Random, numbers: &mut [Number]) -> Option<Cut> {
    let one = some_number(random, numbers)?;
    let how = random.below(3);
    for (which, number) in numbers.iter_mut().enumerate() {
        let padded = match how {
            0 => which == one,
            1 => random.once_in(2),
            _ => true,
        };
        if padded {
            number.pad(match random.below(12) {
                0 => 40,
                1 | 2 => number.enough() + 1,
                _ => random.between(2, 20),
            });
        }
    }
    None
}

fn some_number(random: &mut Random, numbers: &[Number]) -> Option<usize> {
    (!numbers.is_empty()).then(|| random.below(numbers.len()))
}

/// Pads numbers, and sets a bit beyond the width of one of them.
fn bit_beyond(random: &mut Random, numbers: &mut [Number]) -> Option<Cut> {
    pad_some(random, numbers);
    let which = some_number(random, numbers)?;
    set_bit_beyond(random, &mut numbers[which]);
    None
}

/// Pads a number, and cuts behind as many of its bytes as hold all its bits, behind any of them but the last, or behind all where another
/// number follows.
fn cut_in_number(random: &mut Random, numbers: &mut [Number]) -> Option<Cut> {
    let which = some_number(random, numbers)?;
    let last = which + 1 == numbers.len();
    let number = &mut numbers[which];
    let enough = number.enough();
    number.pad(random.between(enough + 1, 20));
    let bytes = match random.below(4) {
        0 => enough,
        1 if !last => number.size(),
        _ => random.between(1, number.size() - 1),
    };
    Some(Cut { which, bytes })
}

/// Sets a bit beyond the width of a padded number, and cuts behind its byte.
fn cut_behind_bit(random: &mut Random, numbers: &mut [Number]) -> Option<Cut> {
    let which = some_number(random, numbers)?;
    let place = set_bit_beyond(random, &mut numbers[which]);
    Some(Cut { which, bytes: place + 1 })
}

/// Pads a number and sets bits beyond its width, in one byte: the last that has bits of the number, with the continuation bit, or a later
/// one, with and without. It gives the place of that byte in the number.
fn set_bit_beyond(random: &mut Random, number: &mut Number) -> usize {
    let enough = number.enough();
    number.pad(random.between(enough + 2, 20));
    let len = number.size();
    let place = if random.once_in(2) { enough - 1 } else { random.between(enough, len - 1) };
    let own = number.bits.saturating_sub(7 * place);
    number.bytes[place] |= (random.between(1, 0x7f >> own) << own) as u8;
    if place >= enough && random.once_in(2) {
        number.bytes[place] &= 0x7f;
        number.bytes.drain(place + 1..len);
    }
    place
}
