//! Valid sections: every offset is in range, hash tables are complete, and every entry can be read.

use crate::bytes::{Order, Writer, leb128};
use crate::model::{Declaration, Index, Leb, Section};
use crate::random::Random;

/// Names, some of them the tail of another, one empty and one that is no UTF-8.
const NAMES: [&[u8]; 10] = [
    b"main", b"in", b"a", b"", b"std::vector", b"operator<<", b"x", b"foo", b"\xff\xfe\x80", b"_Z3barv",
];

/// Codes: those that the answers ask for, so that a search finds them, and others.
const CODES: [u64; 11] = [1, 2, 3, 1, 2, 4, 127, 128, 300, 16_383, u64::MAX];

/// Tags of one, two and three bytes.
const TAGS: [u16; 8] = [0x2e, 0x34, 0x13, 0x01, 0x7f, 0x80, 0x3fff, 0xffff];

/// Names of attributes: the five that entries are read by, and others of one, two and three bytes.
const ATTRIBUTES: [u16; 10] = [1, 2, 3, 4, 5, 3, 6, 0x80, 0x2000, 0xffff];

/// The twelve forms that entries are read by, with the bytes of each; `None` is a LEB128 number.
const FORMS: [(u16, Option<usize>); 12] = [
    (0x0c, Some(1)),
    (0x19, Some(0)),
    (0x0b, Some(1)),
    (0x05, Some(2)),
    (0x06, Some(4)),
    (0x07, Some(8)),
    (0x0f, None),
    (0x11, Some(1)),
    (0x12, Some(2)),
    (0x13, Some(4)),
    (0x14, Some(8)),
    (0x15, None),
];

/// Other forms, of one, two and three bytes. No entry of a valid section has them.
const OTHER_FORMS: [u16; 4] = [0x0e, 0x7f, 0x1f01, 0xffff];

/// A declaration, and what its entries are made by: none where it has a form that no entry can have.
struct Declared {
    declaration: Declaration,
    code: u64,
    forms: Option<Vec<Option<usize>>>,
}

/// A section of one to three indexes with the .debug_str that they share.
pub fn section(random: &mut Random) -> Section {
    let order = random.pick(&[Order::Little, Order::Big]);
    let (strings, offsets) = strings(random);
    let count = random.pick(&[1, 1, 1, 1, 1, 1, 1, 2, 2, 3]);
    let indexes = (0..count).map(|_| index(random, order, &offsets)).collect();
    Section { order, indexes, strings }
}

/// A .debug_str section, and the places where its strings begin; sometimes also a place inside a string.
fn strings(random: &mut Random) -> (Vec<u8>, Vec<u64>) {
    let mut bytes = vec![0; random.below(2)];
    let mut offsets = Vec::new();
    for _ in 0..random.between(1, 5) {
        offsets.push(bytes.len() as u64);
        let name = random.pick(&NAMES);
        if random.once_in(6) {
            offsets.push((bytes.len() + name.len()) as u64);
        }
        bytes.extend(name);
        bytes.push(0);
    }
    (bytes, offsets)
}

fn index(random: &mut Random, order: Order, strings: &[u64]) -> Index {
    let wide = random.once_in(3);
    let names = random.between(0, 6);
    let (buckets, hashes) = hash_table(random, names);
    let declared = declarations(random);
    let (pool, entry_offsets) = pool(random, order, names, &declared);
    let augmentation = random.pick(&[0, 0, 0, 1, 2, 3, 4, 5, 6, 7, 8]);
    Index {
        wide,
        version: 5,
        padding: if random.once_in(5) { [random.byte(), 1] } else { [0, 0] },
        augmentation: random.bytes(augmentation),
        compile_units: units(random, wide),
        local_type_units: units(random, wide),
        foreign_type_units: units(random, true),
        buckets,
        hashes,
        string_offsets: (0..names).map(|_| random.pick(strings)).collect(),
        entry_offsets,
        declarations: declared.into_iter().map(|d| d.declaration).collect(),
        table_end: table_end(random),
        pool,
        wrong: Vec::new(),
    }
}

/// None to three offsets or signatures: small ones, the largest, any.
fn units(random: &mut Random, wide: bool) -> Vec<u64> {
    let largest = if wide { u64::MAX } else { u32::MAX.into() };
    let count = random.between(0, 3);
    (0..count)
        .map(|_| match random.below(4) {
            0 => random.below(300) as u64,
            1 => largest,
            _ => random.next() & largest,
        })
        .collect()
}

/// A complete hash table, or none: the hashes of a bucket stand together, and its start is the number of the first of them,
/// counted from 1, or 0 for an empty bucket.
fn hash_table(random: &mut Random, names: usize) -> (Vec<u32>, Vec<u32>) {
    if random.once_in(3) {
        return (Vec::new(), Vec::new());
    }
    let count = random.between(1, 4) as u32;
    sorted_table(count, (0..names).map(|_| hash(random)).collect())
}

/// The starts of that many buckets, and the hashes in the order of their buckets.
pub fn sorted_table(count: u32, mut hashes: Vec<u32>) -> (Vec<u32>, Vec<u32>) {
    hashes.sort_by_key(|hash| hash % count);
    let first = |bucket| hashes.iter().position(|hash| hash % count == bucket);
    let start = |bucket| first(bucket).map_or(0, |place| place as u32 + 1);
    let buckets = (0..count).map(start).collect();
    (buckets, hashes)
}

/// Small hashes collide, others seldom do.
fn hash(random: &mut Random) -> u32 {
    if random.once_in(2) { random.below(8) as u32 } else { random.next() as u32 }
}

/// A number that is sometimes longer than it needs to be: a LEB128 number of one byte may have two.
fn number(random: &mut Random, value: u64) -> Leb {
    leb128(value, if random.once_in(8) { 2 } else { 1 })
}

/// None to five declarations, codes sometimes used again.
fn declarations(random: &mut Random) -> Vec<Declared> {
    let mut all: Vec<Declared> = Vec::new();
    for _ in 0..random.between(0, 5) {
        let again = !all.is_empty() && random.once_in(5);
        let code = if again { all[random.below(all.len())].code } else { random.pick(&CODES) };
        all.push(declaration(random, code));
    }
    all
}

fn declaration(random: &mut Random, code: u64) -> Declared {
    let tag = random.pick(&TAGS);
    let mut pairs = Vec::new();
    let mut forms = Some(Vec::new());
    for _ in 0..random.pick(&[0, 1, 1, 2, 2, 3]) {
        let name = random.pick(&ATTRIBUTES);
        let form = if random.once_in(8) {
            forms = None;
            random.pick(&OTHER_FORMS)
        } else {
            let (form, bytes) = random.pick(&FORMS);
            forms = forms.map(|all: Vec<_>| [all, vec![bytes]].concat());
            form
        };
        pairs.push((number(random, name.into()), number(random, form.into())));
    }
    pairs.push((number(random, 0), number(random, 0)));
    let (code_bytes, tag) = (number(random, code), number(random, tag.into()));
    let declaration = Declaration { code: code_bytes, tag, pairs };
    Declared { declaration, code, forms }
}

/// The code 0 that closes a table may be missing, and bytes behind it are not read.
fn table_end(random: &mut Random) -> Vec<u8> {
    match random.below(8) {
        0 | 1 => Vec::new(),
        2 => [vec![0], random.bytes(3)].concat(),
        3 => leb128(0, 2),
        _ => vec![0],
    }
}

/// A pool with a series of entries for each name, and the offset of each series. A series may be another name's too, and the code
/// 0 that closes the last one may be missing.
fn pool(random: &mut Random, order: Order, names: usize, declared: &[Declared]) -> (Vec<u8>, Vec<u64>) {
    let mut out = Writer::new(order);
    let mut offsets: Vec<u64> = Vec::new();
    for name in 0..names {
        if name > 0 && random.once_in(8) {
            offsets.push(offsets[name - 1]);
            continue;
        }
        offsets.push(out.bytes.len() as u64);
        for _ in 0..random.between(0, 2) {
            entry(random, &mut out, declared);
        }
        if name + 1 < names || random.once_in(2) {
            out.put(&[0]);
        }
    }
    (out.bytes, offsets)
}

/// An entry of some declaration; nothing where that cannot have one. Of equal codes the first declaration counts.
fn entry(random: &mut Random, out: &mut Writer, declared: &[Declared]) {
    if declared.is_empty() {
        return;
    }
    let code = declared[random.below(declared.len())].code;
    let first = declared.iter().find(|d| d.code == code).unwrap();
    let Some(forms) = &first.forms else {
        return;
    };
    let code_bytes = number(random, code);
    out.put(&code_bytes);
    for form in forms {
        let value = random.below(4) as u64;
        match form {
            None => out.put(&leb128(value, 1)),
            Some(1) => out.put(&[value as u8]),
            Some(2) => out.u16(value as u16),
            Some(4) => out.u32(value as u32),
            Some(8) => out.u64(value),
            _ => {}
        }
    }
}
