//! Sections for the calls on entries. They are not random: values of every form cut at every byte, each attribute in each form, more
//! than one attribute of a name, numbers of units, codes, and series.

use crate::bytes::{Order, Writer, leb128};
use crate::case::Case;
use crate::model::{Declaration, Index, Section};

/// The twelve forms of entries.
const FORMS: [u16; 12] = [0x0c, 0x19, 0x0b, 0x05, 0x06, 0x07, 0x0f, 0x11, 0x12, 0x13, 0x14, 0x15];

/// Both byte orders and both formats.
pub const BOTH: [(Order, bool); 2] = [(Order::Little, false), (Order::Big, true)];

/// An attribute: its name, its form and its value.
pub type Attribute = (u16, u16, u64);

/// A declaration: its code, and the name and the form of each attribute.
pub type Declared = (u64, Vec<(u16, u16)>);

/// All of them.
pub fn cases() -> Vec<Case> {
    let mut sections = Vec::new();
    for (order, wide) in BOTH {
        sections.extend(cuts(order));
        sections.extend(attributes(order, wide));
        sections.push(packed(order, wide, &unknown_forms()));
        sections.push(packed(order, wide, &first_counts()));
        sections.push(packed(order, wide, &large_units()));
        sections.push(small_units(order, wide));
        sections.push(section(order, codes(wide)));
        sections.push(section(order, series(wide)));
    }
    sections.extend(series(false).into_iter().map(|index| section(Order::Little, vec![index])));
    sections.iter().map(Case::encoded).collect()
}

/// A section of these indexes.
pub fn section(order: Order, indexes: Vec<Index>) -> Section {
    Section { order, indexes, strings: b"\0abc\0".to_vec() }
}

/// An index of two compile units, a local and a foreign type unit, and a name for each entry offset.
fn index(wide: bool, declared: &[Declared], pool: &[u8], entry_offsets: &[u64]) -> Index {
    Index {
        wide,
        version: 5,
        padding: [0, 0],
        augmentation: Vec::new(),
        compile_units: vec![0x10, 0x20],
        local_type_units: vec![0x30],
        foreign_type_units: vec![0x4142_4344_4546_4748],
        buckets: Vec::new(),
        hashes: Vec::new(),
        string_offsets: vec![1; entry_offsets.len()],
        entry_offsets: entry_offsets.to_vec(),
        declarations: declared.iter().enumerate().map(declaration).collect(),
        table_end: vec![0],
        pool: pool.to_vec(),
        wrong: Vec::new(),
    }
}

/// The same with one compile unit and no type unit.
pub fn small(wide: bool, declared: &[Declared], pool: &[u8], entry_offsets: &[u64]) -> Index {
    Index {
        compile_units: vec![0x10],
        local_type_units: Vec::new(),
        foreign_type_units: Vec::new(),
        ..index(wide, declared, pool, entry_offsets)
    }
}

/// A declaration. No two of a table have the same tag.
fn declaration((number, (code, attributes)): (usize, &Declared)) -> Declaration {
    let pairs = attributes.iter().chain([&(0, 0)]);
    let pairs = pairs.map(|(name, form)| (leb128((*name).into(), 1), leb128((*form).into(), 1)));
    Declaration { code: leb128(*code, 1), tag: leb128(0x30 + number as u64, 1), pairs: pairs.collect() }
}

/// The bytes of a value; none where the form has none, or is unknown.
pub fn value(order: Order, form: u16, number: u64) -> Vec<u8> {
    let mut out = Writer::new(order);
    match form {
        0x0c | 0x0b | 0x11 => out.put(&[number as u8]),
        0x05 | 0x12 => out.u16(number as u16),
        0x06 | 0x13 => out.u32(number as u32),
        0x07 | 0x14 => out.u64(number),
        0x0f | 0x15 => out.put(&leb128(number, 1)),
        _ => {}
    }
    out.bytes
}

/// For each form an entry with one attribute, whole and cut at each of its bytes.
fn cuts(order: Order) -> Vec<Section> {
    let mut sections = Vec::new();
    for form in FORMS {
        let values = match form {
            0x0f | 0x15 => numbers(),
            _ => vec![value(order, form, 0x8182_8384_8586_8788)],
        };
        sections.extend(values.iter().map(|value| cut(order, form, value)));
    }
    sections
}

/// LEB128 numbers of one, two, five and ten bytes, the largest number, one that is too large, and a 0 of eleven bytes.
fn numbers() -> Vec<Vec<u8>> {
    let too_large = [vec![0xff; 9], vec![2]].concat();
    let eleven = [vec![0x80; 10], vec![0]].concat();
    let numbers = [leb128(5, 1), leb128(300, 1), leb128(0x1_2345_6789, 1), leb128(3, 10), leb128(u64::MAX, 1)];
    [numbers.to_vec(), vec![too_large, eleven]].concat()
}

/// An index with an entry of one attribute; then the same with the pool cut at each byte, each followed by the next index, but the
/// last, which ends with the section.
fn cut(order: Order, form: u16, value: &[u8]) -> Section {
    let name = match form {
        0x0c | 0x19 => 4,
        0x0b | 0x05 | 0x06 | 0x07 | 0x0f => 5,
        _ => 3,
    };
    let pool = [&[1], value].concat();
    let cut = |len: usize| small(false, &[(1, vec![(name, form)])], &pool[..len], &[0]);
    let mut indexes = vec![cut(pool.len())];
    indexes.extend((0..pool.len()).map(cut));
    section(order, indexes)
}

/// A section of entries that each have a declaration of their own, with codes from 1 on. As many stand in a pool as the offsets that
/// are asked for can reach.
fn packed(order: Order, wide: bool, entries: &[Vec<Attribute>]) -> Section {
    let mut indexes = Vec::new();
    let mut declared: Vec<Declared> = Vec::new();
    let mut pool = Vec::new();
    for entry in entries {
        let values: Vec<u8> = entry.iter().flat_map(|(_, form, number)| value(order, *form, *number)).collect();
        if pool.len() + 1 + values.len() > 20 {
            indexes.push(index(wide, &declared, &pool, &[0]));
            declared.clear();
            pool.clear();
        }
        let code = declared.len() as u64 + 1;
        declared.push((code, entry.iter().map(|(name, form, _)| (*name, *form)).collect()));
        pool.push(code as u8);
        pool.extend(values);
    }
    indexes.push(index(wide, &declared, &pool, &[0]));
    section(order, indexes)
}

/// An index of one entry.
pub fn one(order: Order, wide: bool, entry: &[Attribute]) -> Index {
    let values = entry.iter().flat_map(|(_, form, number)| value(order, *form, *number));
    let pool: Vec<u8> = [1].into_iter().chain(values).collect();
    index(wide, &[(1, entry.iter().map(|(name, form, _)| (*name, *form)).collect())], &pool, &[0])
}

/// For each of the five names a section with an entry for each form.
fn attributes(order: Order, wide: bool) -> Vec<Section> {
    (1..=5).map(|name| packed(order, wide, &each_form(name))).collect()
}

/// Units have small numbers, other values have different bytes.
fn each_form(name: u16) -> Vec<Vec<Attribute>> {
    let mut entries = vec![vec![(name, 0x0c, 0)], vec![(name, 0x0c, 255)]];
    for form in FORMS {
        let number = match form {
            0x0c => 1,
            _ if name <= 2 => 1,
            0x0f | 0x15 => 300,
            _ => 0xf1f2_f3f4_f5f6_f7f8,
        };
        entries.push(vec![(name, form, number)]);
    }
    entries
}

/// Unknown forms, alone, and before and after an attribute that can be read; and names of attributes that are none of the five.
fn unknown_forms() -> Vec<Vec<Attribute>> {
    let mut entries = Vec::new();
    for form in [0x01, 0x08, 0x0e, 0x1d, 0x1001, 0xffff] {
        entries.push(vec![(6, form, 0)]);
        entries.push(vec![(6, form, 0), (3, 0x11, 7)]);
        entries.push(vec![(3, 0x11, 7), (6, form, 0)]);
        entries.push(vec![(3, form, 0), (3, 0x11, 7)]);
    }
    for name in [6, 0x80, 0x2000, 0xffff] {
        entries.push(vec![(name, 0x0b, 1)]);
        entries.push(vec![(name, 0x0b, 1), (3, 0x11, 7)]);
        entries.push(vec![(3, 0x11, 7), (name, 0x19, 0), (5, 0x0b, 2)]);
    }
    entries
}

/// Entries with two attributes of one name: two right ones, and a right and a wrong one; and with all five names.
fn first_counts() -> Vec<Vec<Attribute>> {
    let mut entries = Vec::new();
    for (name, right, wrong) in [(1, 0x0b, 0x11), (2, 0x0b, 0x19), (3, 0x11, 0x0b), (4, 0x11, 0x0b), (5, 0x0b, 0x0c)] {
        entries.push(vec![(name, right, 0), (name, right, 1)]);
        entries.push(vec![(name, right, 1), (name, wrong, 0)]);
        entries.push(vec![(name, wrong, 0), (name, right, 1)]);
    }
    entries.push(vec![(4, 0x0c, 0), (4, 0x11, 1)]);
    entries.push(vec![(4, 0x0c, 1), (4, 0x11, 1)]);
    entries.push(vec![(4, 0x19, 0), (4, 0x0c, 0)]);
    entries.push(vec![(1, 0x0b, 1), (2, 0x0b, 0), (3, 0x11, 2), (4, 0x11, 3), (5, 0x0b, 4)]);
    entries.push(vec![(5, 0x0b, 4), (4, 0x19, 0), (3, 0x12, 2), (2, 0x0f, 1), (1, 0x0f, 0)]);
    entries.push(Vec::new());
    entries
}

/// Numbers of units around 4294967295.
fn large_units() -> Vec<Vec<Attribute>> {
    let mut entries = Vec::new();
    for name in [1, 2] {
        for form in [0x06, 0x07, 0x0f] {
            for number in [0xffff_fffe, 0xffff_ffff, 0x1_0000_0000, 0x1_0000_0001, u64::MAX] {
                if form != 0x06 || number <= 0xffff_ffff {
                    entries.push(vec![(name, form, number)]);
                }
            }
        }
    }
    entries
}

/// Numbers of units up to two past the last, in indexes that have none, one or some of each list.
fn small_units(order: Order, wide: bool) -> Section {
    let declared = [(1, vec![(1, 0x0b)]), (2, vec![(2, 0x0f)])];
    let pool = [1, 0, 2, 0, 1, 1, 2, 1, 1, 2, 2, 2, 1, 3, 2, 3, 1, 4, 2, 4];
    let with = |compile: usize, local: usize, foreign: usize| Index {
        compile_units: (1..=compile as u64).collect(),
        local_type_units: (11..11 + local as u64).collect(),
        foreign_type_units: (21..21 + foreign as u64).collect(),
        ..index(wide, &declared, &pool, &[0])
    };
    section(order, vec![with(0, 0, 0), with(1, 0, 2), with(2, 2, 0), with(3, 1, 2)])
}

/// Codes: without a declaration, of several bytes, too large, cut short, declared twice, and declarations without attributes.
fn codes(wide: bool) -> Vec<Index> {
    let largest = leb128(u64::MAX, 1);
    let one = [(1, vec![(3, 0x11)])];
    let several = [(u64::MAX, vec![(3, 0x11)]), (128, Vec::new()), (300, vec![(5, 0x0f)]), (1 << 32, Vec::new())];
    let twice = [(1, vec![(3, 0x11)]), (1, vec![(5, 0x0b), (5, 0x0b)]), (2, Vec::new()), (2, vec![(3, 0x11)])];
    let too_large = [vec![0xff; 9], vec![2]].concat();
    let eleven = [vec![0x80; 10], vec![0]].concat();
    let pools: [&[u8]; 11] = [
        &[2, 0],
        &[0x7f],
        &[0x81, 0, 7, 0],
        &[0x81, 0x80, 0x80, 0, 7],
        &largest,
        &too_large,
        &eleven,
        &[0x80],
        &[0x81, 0x80],
        &[0xff, 0xff, 0xff],
        &[0x80, 0, 1, 7],
    ];
    let mut indexes: Vec<Index> = pools.iter().map(|pool| small(wide, &one, pool, &[0])).collect();
    indexes.push(small(wide, &several, &[&largest[..], &[9, 0]].concat(), &[0]));
    indexes.push(small(wide, &several, &[0x80, 1, 0xac, 2, 0x85, 1, 0x80, 0x80, 0x80, 0x80, 0x10, 1, 0], &[0, 2]));
    indexes.push(small(wide, &several, &[0xac, 2, 0x85, 0xac, 2], &[0, 3]));
    indexes.push(small(wide, &twice, &[1, 9, 2, 1, 8, 0], &[0, 2]));
    indexes.push(small(wide, &[(1, Vec::new()), (2, Vec::new())], &[1, 2, 1, 0, 2], &[0, 4]));
    indexes.push(small(wide, &[], &[1, 0], &[0, 1]));
    indexes
}

/// Series: with and without the code 0 at their ends, shared, with a refused entry, long ones, and entry offsets around the pool's end.
fn series(wide: bool) -> Vec<Index> {
    let declared = [(1, vec![(3, 0x11)]), (2, Vec::new()), (3, vec![(6, 0x0e)])];
    let far = if wide { u64::MAX } else { u32::MAX.into() };
    let pools: [(&[u8], &[u64]); 18] = [
        (&[1, 5, 0], &[0]),
        (&[1, 5, 1, 6], &[0]),
        (&[1, 5, 1, 6, 0], &[0, 2]),
        (&[1, 5, 0, 2, 0], &[3, 0]),
        (&[1, 5, 2, 0], &[0, 0]),
        (&[1, 5, 4, 0], &[0, 3]),
        (&[1, 5, 1], &[0, 2]),
        (&[2, 3, 2, 0], &[0, 2]),
        (&[2, 0x80], &[0, 1]),
        (&[1, 5, 0], &[3, 0]),
        (&[1, 5, 0], &[4, 3]),
        (&[1, 5, 0], &[far, 1]),
        (&[1, 5, 0], &[far / 2, 2]),
        (&[], &[0, 1]),
        (&[], &[]),
        (&[0, 0], &[0, 1]),
        (&[2, 2, 2, 2, 2, 2, 2, 2, 0], &[0, 2]),
        (&[2, 2, 2, 2, 2, 2], &[0, 1]),
    ];
    let mut indexes: Vec<Index> = pools.iter().map(|(pool, offsets)| small(wide, &declared, pool, offsets)).collect();
    indexes.push(hashed(small(wide, &declared, &[1, 5, 0, 2, 1, 6], &[0, 3])));
    indexes.push(hashed(small(wide, &declared, &[1, 5, 2, 4], &[0, 4])));
    // In 32-bit DWARF these are the offsets 0 and 2.
    indexes.push(small(wide, &declared, &[1, 5, 2], &[0x1_0000_0000, 0x1_0000_0002]));
    indexes
}

/// The same with a hash table, of one bucket.
fn hashed(index: Index) -> Index {
    Index { buckets: vec![1], hashes: (3..).take(index.string_offsets.len()).collect(), ..index }
}
