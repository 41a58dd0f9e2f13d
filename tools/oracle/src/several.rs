//! Sections for the query: names that stand in several indexes, and more than once in an index. Those of `cases` are not random.

use crate::bytes::Order;
use crate::case::Case;
use crate::entries::{self, Attribute, BOTH, Declared};
use crate::model::{Index, Section};
use crate::random::Random;
use crate::valid::sorted_table;

/// Those that are not random, in both byte orders and both formats.
pub fn cases() -> Vec<Case> {
    let mut sections = Vec::new();
    for (order, wide) in BOTH {
        let section = |indexes: Vec<Index>| entries::section(order, indexes);
        sections.extend(wrong_entries(order, wide).into_iter().map(|index| section(vec![good(wide), index])));
        sections.extend(candidates(wide).into_iter().map(|index| section(vec![good(wide), index, good(wide)])));
    }
    sections.iter().map(Case::encoded).collect()
}

/// Sections with an entry that has both attributes of units, behind an index with a good entry: a type unit of each list, two that are not
/// there, one with too large a number and one of a wrong form, each beside such compile units. In little-endian order the type_unit attribute
/// stands first, in big-endian order the compile_unit attribute.
pub fn both_units() -> Vec<Case> {
    let types = [(2, 0x0b, 0), (2, 0x0b, 1), (2, 0x0b, 2), (2, 0x0b, 3), (2, 0x0f, 0x1_0000_0000), (2, 0x19, 0)];
    let compile = [(1, 0x0b, 1), (1, 0x0b, 2), (1, 0x0b, 3), (1, 0x0f, 0x1_0000_0000), (1, 0x11, 0)];
    let mut sections = Vec::new();
    for (order, wide) in BOTH {
        for (type_unit, unit) in types.iter().flat_map(|type_unit| compile.iter().map(move |unit| (*type_unit, *unit))) {
            let [first, second] = if wide { [unit, type_unit] } else { [type_unit, unit] };
            let index = entries::one(order, wide, &[first, second, (3, 0x11, 9)]);
            sections.push(entries::section(order, vec![good(wide), index]));
        }
    }
    sections.iter().map(Case::encoded).collect()
}

/// An index with an entry of "abc", and no hash table.
fn good(wide: bool) -> Index {
    entries::small(wide, &[(1, vec![(3, 0x11)])], &[1, 5, 0], &[0])
}

/// Indexes with an entry that has two wrong attributes, or a wrong one beside a right one, in one order and the other. The refusal shows
/// which was looked at first: the whole entry, then the unit, and that by the type_unit attribute, then the DIE offset.
fn wrong_entries(order: Order, wide: bool) -> Vec<Index> {
    let (unit, type_unit, die, unknown) = ((1, 0x11, 0), (2, 0x19, 0), (3, 0x0b, 0), (6, 0x0e, 0));
    let (missing, large) = ((1, 0x0b, 2), (1, 0x0f, 0x1_0000_0000));
    let (missing_type, large_type) = ((2, 0x0b, 2), (2, 0x0f, 0x1_0000_0000));
    let right = [(1, 0x0b, 1), (2, 0x0b, 1), (3, 0x11, 9)];
    let entries: [&[Attribute]; 20] = [
        &[unit, die],
        &[die, unit],
        &[type_unit, die],
        &[die, type_unit],
        &[type_unit, unit],
        &[unit, unknown],
        &[die, unknown],
        &[missing, die],
        &[die, missing],
        &[large, die],
        &[die, large],
        &[missing_type, die],
        &[large_type, die],
        &[missing_type, large],
        &[right[0], die],
        &[die, right[1]],
        &[unit, right[1], right[2]],
        &[type_unit, right[0], right[2]],
        &[large_type, right[0]],
        &[right[2], right[1], right[0]],
    ];
    entries.iter().map(|entry| entries::one(order, wide, entry)).collect()
}

/// Indexes of three names, of which some are "abc", each with an entry: with unreadable strings, starts of buckets that are refused, runs
/// that end before a name or begin behind it, equal hashes of different names and different hashes of one; series that are shared, that
/// run on into the next, that are empty, and that lie outside the pool.
fn candidates(wide: bool) -> Vec<Index> {
    let with = |strings: [u64; 3], starts: &[u32], hashes: [u32; 3], offsets: [u64; 3]| Index {
        buckets: starts.to_vec(),
        hashes: if starts.is_empty() { Vec::new() } else { hashes.to_vec() },
        string_offsets: strings.to_vec(),
        ..entries::small(wide, &[(1, vec![(3, 0x11)]), (2, vec![])], &[1, 7, 0, 2, 2, 0, 1, 8, 1, 9], &offsets)
    };
    let (abc, bc, empty, bad, far) = (1, 2, 4, 5, 1000);
    let series = [0, 3, 6];
    vec![
        with([abc, abc, abc], &[], [0; 3], series),
        with([abc, bc, abc], &[1], [0; 3], series),
        with([abc, empty, 0], &[], [0; 3], series),
        with([abc, bc, bad], &[], [0; 3], series),
        with([far, abc, abc], &[], [0; 3], series),
        with([abc, bad, bc], &[1, 2], [0, 1, 3], series),
        with([abc, bad, bc], &[1, 3], [0, 2, 3], series),
        with([abc, far, abc], &[1, 0], [0, 0, 0], series),
        with([abc, bc, abc], &[1, 5], [0, 2, 4], series),
        with([abc, bc, abc], &[4, 1], [0, 2, 4], series),
        with([abc, bc, abc], &[5, 1], [1, 3, 3], series),
        with([abc, abc, abc], &[1, 2], [0, 1, 0], series),
        with([abc, abc, abc], &[2, 2], [0, 1, 0], series),
        with([abc, abc, abc], &[2], [0, 0, 0], series),
        with([abc, abc, abc], &[0], [0, 0, 0], series),
        with([abc, abc, abc], &[1], [0, 7, 0], series),
        with([abc, abc, bc], &[1], [0; 3], [3, 3, 3]),
        with([abc, abc, bc], &[], [0; 3], [6, 8, 0]),
        with([abc, bc, abc], &[], [0; 3], [2, 5, 10]),
        with([abc, bc, abc], &[], [0; 3], [0, 11, 8]),
        with([bc, abc, abc], &[1], [0; 3], [far, 0, 11]),
    ]
}

/// A name: the place of its string, and its hash.
type Name = (u64, u32);

/// A section of two to four indexes that share a few names; equal names have equal hashes, and some different names too.
pub fn section(random: &mut Random) -> Section {
    let order = random.pick(&[Order::Little, Order::Big]);
    let (strings, names) = strings(random);
    let count = random.pick(&[2, 2, 2, 3, 3, 4]);
    let indexes = (0..count).map(|_| index(random, order, &names)).collect();
    Section { order, indexes, strings }
}

/// Two to four names, some of them at two places.
fn strings(random: &mut Random) -> (Vec<u8>, Vec<Name>) {
    let modulus = random.pick(&[3, 16, u32::MAX]);
    let mut bytes = vec![0];
    let mut names = Vec::new();
    for _ in 0..random.between(2, 4) {
        let name = random.pick(&[&b"main"[..], b"main", b"foo", b"foo2", b"x", b""]);
        let hash = name.iter().fold(5381, |hash: u32, byte| hash.wrapping_mul(33).wrapping_add((*byte).into()));
        for _ in 0..random.between(1, 2) {
            names.push((bytes.len() as u64, hash % modulus));
            bytes.extend(name);
            bytes.push(0);
        }
    }
    (bytes, names)
}

/// An index of one to five names with a complete hash table, or none.
fn index(random: &mut Random, order: Order, names: &[Name]) -> Index {
    let wide = random.once_in(3);
    let count = random.between(1, 5);
    let mut own: Vec<Name> = (0..count).map(|_| random.pick(names)).collect();
    let buckets = random.between(0, 3) as u32;
    let (starts, hashes) = match buckets {
        0 => (Vec::new(), Vec::new()),
        _ => {
            own.sort_by_key(|(_, hash)| hash % buckets);
            sorted_table(buckets, own.iter().map(|(_, hash)| *hash).collect())
        }
    };
    let units = [random.pick(&[0, 1, 1, 2]), random.between(0, 2), random.between(0, 2)];
    let declared: Vec<Declared> = (1..=random.between(1, 3)).map(|code| (code as u64, declaration(random, units))).collect();
    let (pool, offsets) = pool(random, order, count, &declared, units);
    let unit = |kind: usize| (0..units[kind]).map(move |number| (100 * (kind + 1) + number) as u64).collect();
    Index {
        compile_units: unit(0),
        local_type_units: unit(1),
        foreign_type_units: unit(2),
        buckets: starts,
        hashes,
        string_offsets: own.iter().map(|(place, _)| *place).collect(),
        ..entries::small(wide, &declared, &pool, &offsets)
    }
}

/// Attributes in any order, with forms that they can have: a unit of a list that is not empty, or none, mostly a DIE offset, and others.
fn declaration(random: &mut Random, units: [usize; 3]) -> Vec<(u16, u16)> {
    let mut attributes = Vec::new();
    let unsigned = [0x0b, 0x05, 0x06, 0x07, 0x0f];
    let reference = [0x11, 0x12, 0x13, 0x14, 0x15];
    for (name, there, forms) in [
        (1, units[0] > 0 && random.once_in(2), &unsigned),
        (2, units[1] + units[2] > 0 && random.once_in(2), &unsigned),
        (3, !random.once_in(4), &reference),
        (4, random.once_in(4), &reference),
    ] {
        if there {
            let place = random.below(attributes.len() + 1);
            attributes.insert(place, (name, random.pick(forms)));
        }
    }
    attributes
}

/// A series of none to three entries for each name, sometimes that of the name before, and the offset of each.
fn pool(random: &mut Random, order: Order, names: usize, declared: &[Declared], units: [usize; 3]) -> (Vec<u8>, Vec<u64>) {
    let mut pool = Vec::new();
    let mut offsets: Vec<u64> = Vec::new();
    for name in 0..names {
        if name > 0 && random.once_in(6) {
            offsets.push(offsets[name - 1]);
            continue;
        }
        offsets.push(pool.len() as u64);
        for _ in 0..random.pick(&[0, 1, 1, 1, 2, 3]) {
            let (code, attributes) = random.pick(declared);
            pool.push(code as u8);
            for (name, form) in attributes {
                let number = number(random, name, units);
                pool.extend(entries::value(order, form, number));
            }
        }
        pool.push(0);
    }
    (pool, offsets)
}

/// The value of an attribute: seldom a unit that is not in its list, or too large a number where the form has room for it.
fn number(random: &mut Random, name: u16, units: [usize; 3]) -> u64 {
    let count = match name {
        1 => units[0],
        2 => units[1] + units[2],
        _ => return random.below(1000) as u64,
    };
    match random.below(40) {
        0 => count as u64,
        1 => 0x1_0000_0000,
        _ => random.below(count) as u64,
    }
}
