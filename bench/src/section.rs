//! Makes a .debug_names section and its .debug_str that look like those of compilers and linkers: 32-bit DWARF, little-endian, LLVM's
//! augmentation, complete hash tables with the hashes of DWARF 5, and abbreviations whose frequent codes come first.

use crate::random::Random;
use std::collections::HashSet;

/// What a section is to have.
#[derive(Clone, Copy)]
pub struct Shape {
    pub indexes: usize,
    /// So many names in each index.
    pub names: usize,
    /// So many units of each kind in each index.
    pub compile_units: usize,
    pub local_type_units: usize,
    pub foreign_type_units: usize,
}

/// The two sections.
pub struct Sections {
    pub names: Vec<u8>,
    pub strings: Vec<u8>,
}

/// One name in so many is one that other indexes may have too.
const SHARED_ONE_IN: usize = 5;
/// So many names are shared among the indexes.
const SHARED: usize = 2000;

/// The attributes of entries. A unit number has the form data1 or data2, as the number of units needs it, or udata.
#[derive(Clone, Copy, PartialEq)]
enum Attribute {
    Unit,
    /// Left out where the index has one compile unit.
    UnitUnlessOnly,
    UnitUdata,
    TypeUnit,
    Die,
    Parent,
    NoParent,
    TypeHash,
}
use Attribute::*;

/// The declarations: tag, attributes, and how many entries of a thousand have it. The code is the number of the line, from 1.
const DECLARATIONS: [(u16, &[Attribute], usize); 18] = [
    (0x2e, &[Unit, Die, Parent], 300),                    // subprogram
    (0x13, &[Unit, Die, Parent], 150),                    // structure_type
    (0x2e, &[Unit, Die, NoParent], 120),                  // subprogram
    (0x16, &[Unit, Die, Parent], 90),                     // typedef
    (0x34, &[UnitUnlessOnly, Die, NoParent], 70),         // variable
    (0x1d, &[Unit, Die, Parent], 60),                     // inlined_subroutine
    (0x02, &[UnitUnlessOnly, Die, NoParent], 45),         // class_type
    (0x24, &[UnitUnlessOnly, Die, NoParent], 35),         // base_type
    (0x04, &[Unit, Die, Parent], 30),                     // enumeration_type
    (0x13, &[TypeUnit, Die, Parent, TypeHash], 25),       // structure_type
    (0x39, &[UnitUnlessOnly, Die, NoParent], 20),         // namespace
    (0x17, &[Unit, Die, Parent], 15),                     // union_type
    (0x02, &[TypeUnit, Die, NoParent], 12),               // class_type
    (0x02, &[Unit, TypeUnit, Die, Parent, TypeHash], 10), // class_type
    (0x16, &[UnitUdata, Die, NoParent], 8),               // typedef
    (0x34, &[UnitUdata, Die, Parent], 5),                 // variable
    (0x08, &[Unit, Die], 3),                              // imported_declaration
    (0x0a, &[UnitUnlessOnly, Die, Parent], 2),            // label
];

/// A name: the offset of its string, and its hash.
#[derive(Clone, Copy, PartialEq, Eq, Hash)]
struct Name {
    string: u32,
    hash: u32,
}

/// The hash of a name (DWARF 5, 7.33), for ASCII names.
pub fn hash_of(name: &[u8]) -> u32 {
    let step = |hash: u32, byte: &u8| hash.wrapping_mul(33).wrapping_add(byte.to_ascii_lowercase().into());
    name.iter().fold(5381, step)
}

/// A name of 10 to 40 bytes.
pub fn random_name(random: &mut Random) -> Vec<u8> {
    const LETTERS: &[u8; 64] = b"abcdefghijklmnopqrstuvwxyzABCDEFGHIJKLMNOPQRSTUVWXYZ0123456789__";
    let len = 10 + random.below(31);
    let mut name: Vec<u8> = (0..len).map(|_| LETTERS[random.below(64)]).collect();
    name[0] = b'_';
    name
}

/// Makes the two sections.
pub fn make(shape: Shape, seed: u64) -> Sections {
    let mut random = Random(seed);
    let mut strings = vec![0];
    let shared: Vec<Name> = (0..SHARED).map(|_| new_name(&mut strings, &mut random)).collect();
    let mut names = Vec::new();
    for _ in 0..shape.indexes {
        let mut own = names_of_index(shape, &shared, &mut strings, &mut random);
        names.extend(index(shape, &mut own, &mut random));
    }
    Sections { names, strings }
}

fn new_name(strings: &mut Vec<u8>, random: &mut Random) -> Name {
    let text = random_name(random);
    let name = Name { string: strings.len() as u32, hash: hash_of(&text) };
    strings.extend(text);
    strings.push(0);
    name
}

/// The names of an index: none of them stands twice.
fn names_of_index(shape: Shape, shared: &[Name], strings: &mut Vec<u8>, random: &mut Random) -> Vec<Name> {
    let mut names = HashSet::new();
    let mut list = Vec::new();
    while list.len() < shape.names {
        let is_shared = shape.indexes > 1 && random.below(SHARED_ONE_IN) == 0;
        let name = if is_shared { shared[random.below(shared.len())] } else { new_name(strings, random) };
        if names.insert(name) {
            list.push(name);
        }
    }
    list
}

/// The bytes of an index. Its names are put in the order of their buckets, and in a bucket in that of their hashes.
fn index(shape: Shape, names: &mut [Name], random: &mut Random) -> Vec<u8> {
    let buckets = (names.len() * 2 / 3).max(1) as u32;
    names.sort_by_key(|name| (name.hash % buckets, name.hash));
    let (offsets, pool) = entries(shape, names.len(), random);
    let abbreviations = abbreviations(shape);
    let counts = [shape.compile_units, shape.local_type_units, shape.foreign_type_units];
    let mut body = [5, 0, 0, 0].to_vec();
    put(&mut body, counts.map(|count| count as u32));
    put(&mut body, [buckets, names.len() as u32, abbreviations.len() as u32, 8]);
    body.extend(b"LLVM0700");
    put(&mut body, (0..counts[0] + counts[1]).map(|_| random.next() as u32 >> 4));
    (0..counts[2]).for_each(|_| body.extend(random.next().to_le_bytes()));
    put(&mut body, starts(names, buckets));
    put(&mut body, names.iter().map(|name| name.hash));
    put(&mut body, names.iter().map(|name| name.string));
    put(&mut body, offsets);
    body.extend(abbreviations);
    body.extend(pool);
    let mut bytes = (body.len() as u32).to_le_bytes().to_vec();
    bytes.extend(body);
    bytes
}

fn put(bytes: &mut Vec<u8>, numbers: impl IntoIterator<Item = u32>) {
    numbers.into_iter().for_each(|number| bytes.extend(number.to_le_bytes()));
}

/// The start of each bucket: the number of its first name, from 1, or 0.
fn starts(names: &[Name], buckets: u32) -> Vec<u32> {
    let mut starts = vec![0; buckets as usize];
    for (number, name) in names.iter().enumerate().rev() {
        starts[(name.hash % buckets) as usize] = number as u32 + 1;
    }
    starts
}

/// The attributes of a declaration in an index of this shape.
fn attributes(shape: Shape, declared: &[Attribute]) -> impl Iterator<Item = Attribute> {
    declared.iter().copied().filter(move |attribute| *attribute != UnitUnlessOnly || shape.compile_units > 1)
}

/// The form of a number below a count: data1 or data2.
fn form(count: usize) -> u8 {
    if count <= 256 { 0x0b } else { 0x05 }
}

fn abbreviations(shape: Shape) -> Vec<u8> {
    let mut bytes = Vec::new();
    for (number, (tag, declared, _)) in DECLARATIONS.iter().enumerate() {
        bytes.extend([number as u8 + 1, *tag as u8]);
        for attribute in attributes(shape, declared) {
            bytes.extend(match attribute {
                Unit | UnitUnlessOnly => [1, form(shape.compile_units)],
                UnitUdata => [1, 0x0f],
                TypeUnit => [2, form(shape.local_type_units + shape.foreign_type_units)],
                Die => [3, 0x13],
                Parent => [4, 0x13],
                NoParent => [4, 0x19],
                TypeHash => [5, 0x07],
            });
        }
        bytes.extend([0, 0]);
    }
    bytes.push(0);
    bytes
}

/// The offset of each name's series, and the pool.
fn entries(shape: Shape, names: usize, random: &mut Random) -> (Vec<u32>, Vec<u8>) {
    let mut pool = Vec::new();
    let mut offsets = Vec::new();
    let mut all = Vec::new();
    for _ in 0..names {
        offsets.push(pool.len() as u32);
        for _ in 0..series_length(random) {
            let offset = pool.len() as u32;
            entry(shape, &all, &mut pool, random);
            all.push(offset);
        }
        pool.push(0);
    }
    (offsets, pool)
}

/// About 1.2 entries a name.
fn series_length(random: &mut Random) -> usize {
    match random.below(100) {
        0..88 => 1,
        88..95 => 2,
        95..98 => 3,
        _ => 5,
    }
}

/// An entry. Its parent is one of the entries before it.
fn entry(shape: Shape, before: &[u32], pool: &mut Vec<u8>, random: &mut Random) {
    let number = declaration(random);
    pool.push(number as u8 + 1);
    for attribute in attributes(shape, DECLARATIONS[number].1) {
        match attribute {
            Unit | UnitUnlessOnly => unit(shape.compile_units, pool, random),
            UnitUdata => leb128(random.below(shape.compile_units), pool),
            TypeUnit => unit(shape.local_type_units + shape.foreign_type_units, pool, random),
            Die => pool.extend((random.below(1 << 20) as u32).to_le_bytes()),
            Parent => pool.extend(before.get(random.below(before.len() + 1)).unwrap_or(&0).to_le_bytes()),
            NoParent => {}
            TypeHash => pool.extend(random.next().to_le_bytes()),
        }
    }
}

/// The number of a declaration, by the frequencies.
fn declaration(random: &mut Random) -> usize {
    let mut left = random.below(1000);
    DECLARATIONS
        .iter()
        .position(|(_, _, frequency)| {
            let found = left < *frequency;
            left = left.saturating_sub(*frequency);
            found
        })
        .expect("the frequencies add up to 1000")
}

/// The number of a unit.
fn unit(count: usize, pool: &mut Vec<u8>, random: &mut Random) {
    let number = random.below(count);
    match form(count) {
        0x0b => pool.push(number as u8),
        _ => pool.extend((number as u16).to_le_bytes()),
    }
}

fn leb128(mut number: usize, bytes: &mut Vec<u8>) {
    while number >= 0x80 {
        bytes.push(number as u8 & 0x7f | 0x80);
        number >>= 7;
    }
    bytes.push(number as u8);
}
