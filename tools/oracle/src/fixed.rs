//! Sections that are not random: document 01's case A and its variants, the smallest sections, one with more units and names than
//! are asked for, and a small index that is cut at every byte.

use crate::bytes::{Order, Writer};
use crate::case::Case;
use crate::damage;
use crate::model::{Declaration, Index, Section};

/// Document 01's case A, whose answers can be worked out by hand.
const CASE_A: &[u8] = b"\x69\0\0\0\x05\0\0\0\x01\0\0\0\0\0\0\0\0\0\0\0\x02\0\0\0\x03\0\0\0\x07\0\0\0\0\0\0\0\
    \0\0\0\0\x01\0\0\0\x02\0\0\0\x04\0\0\0\x07\0\0\0\x09\0\0\0\x01\0\0\0\x05\0\0\0\x06\0\0\0\
    \0\0\0\0\x06\0\0\0\x0c\0\0\0\x01\x2e\x03\x13\0\0\0\
    \x01\x10\0\0\0\0\x01\x20\0\0\0\0\x01\x30\0\0\0\0";
const STRINGS: &[u8] = b"\0abc\0de\0";

/// Case A's answers, worked out by hand.
pub const CASE_A_ANSWERS: &str = "section 0
header 0 105 4 5 1 0 0 2 3 7 -
index
counts 1 0 0 0 2 3 1
compile_unit 0 0
compile_unit 1 refused 1 40
compile_unit 2 refused 1 36
local_type_unit 0 refused 1 40
local_type_unit 1 refused 1 40
foreign_type_unit 0 refused 1 40
foreign_type_unit 1 refused 1 40
type_unit 0 refused 1 40
type_unit 1 refused 1 40
default_compile_unit 0
names 0 1 2
string_offset 0 1
string 0 1 3
string_offset 1 5
string 1 5 2
string_offset 2 6
string 2 6 1
string_offset 3 refused 1 72
string 3 refused 1 72
string_offset 4 refused 1 60
string 4 refused 1 60
abbreviation 0 -
abbreviation 1 46 3:19
abbreviation 2 -
abbreviation 3 -
abbreviation 127 -
abbreviation 128 -
abbreviation 300 -
abbreviation 18446744073709551615 -
find_by_bucket 0 0
next_in_bucket 0 4
next_in_bucket end
next_in_bucket end
next_in_bucket end
find_by_bucket 1 1
next_in_bucket 1 7
next_in_bucket 2 9
next_in_bucket end
next_in_bucket end
next_in_bucket end
find_by_bucket 2 refused 1 48
find_by_bucket 3 refused 1 40
find_by_hash 4 0
next_of_hash 0
next_of_hash end
next_of_hash end
next_of_hash end
find_by_hash 7 1
next_of_hash 1
next_of_hash end
next_of_hash end
next_of_hash end
find_by_hash 9 1
next_of_hash 2
next_of_hash end
next_of_hash end
next_of_hash end
find_by_hash 0 0
next_of_hash end
next_of_hash end
next_of_hash end
find_by_hash 1 1
next_of_hash end
next_of_hash end
next_of_hash end
find_by_hash 1 1
next_of_hash end
next_of_hash end
next_of_hash end
find_by_hash 5381 1
next_of_hash end
next_of_hash end
next_of_hash end
find_by_hash 4294967295 1
next_of_hash end
next_of_hash end
next_of_hash end
find_by_hash 5 1
next_of_hash end
next_of_hash end
next_of_hash end
table complete
name_entries 0 91
next 0 1 46
next end
next end
name_entries 1 97
next 6 1 46
next end
next end
name_entries 2 103
next 12 1 46
next end
next end
name_entries 3 refused 1 84
name_entries 4 refused 1 72
name_entry 0 1 46
entry_compile_unit 0 -
entry_type_unit 0 -
die_offset 0 16
parent 0 -
type_hash 0 -
name_entry 1 refused 8 16
entry_compile_unit 1 refused 8 16
entry_type_unit 1 refused 8 16
die_offset 1 refused 8 16
parent 1 refused 8 16
type_hash 1 refused 8 16
name_entry 2 refused 10 2
name_entry 3 refused 10 3
name_entry 4 refused 10 4
name_entry 5 refused 10 5
name_entry 6 1 46
entry_compile_unit 6 -
entry_type_unit 6 -
die_offset 6 32
parent 6 -
type_hash 6 -
name_entry 7 refused 8 32
name_entry 8 refused 10 8
name_entry 9 refused 10 9
name_entry 10 refused 10 10
name_entry 11 refused 10 11
name_entry 12 1 46
entry_compile_unit 12 -
entry_type_unit 12 -
die_offset 12 48
parent 12 -
type_hash 12 -
name_entry 13 refused 8 48
name_entry 14 refused 10 14
name_entry 15 refused 10 15
name_entry 16 refused 10 16
name_entry 17 refused 10 17
name_entry 18 refused 1 109
name_entry 19 refused 1 91
query 4 1 3 1
record 0 0 0 0 46 1 0 1 16
query 7 1 3 0
query 4 1 4 0
query 4 1 2 0
query 7 5 2 1
record 0 0 6 1 46 1 0 1 32
query 9 5 2 0
query 9 6 1 1
record 0 0 12 2 46 1 0 1 48
end
query 0 0 0 0
";

fn little(names: &[u8]) -> Case {
    Case { order: Order::Little, names: names.to_vec(), strings: STRINGS.to_vec() }
}

pub fn case_a() -> Case {
    little(CASE_A)
}

/// Those that are not cut, case A first.
pub fn cases() -> Vec<Case> {
    let mut cases = vec![case_a()];
    for names in [&b""[..], b"\0", b"\0\0\0\0", b"\0\0\0\0\0", b"\x01\0\0\0\x05"] {
        cases.push(little(names));
    }
    for length in [0xffff_ffef_u32, 0xffff_fff0, 0xffff_fffe, 0xffff_ffff] {
        cases.push(little(&[&length.to_le_bytes(), &CASE_A[4..]].concat()));
    }
    cases.push(little(&[CASE_A, CASE_A].concat()));
    cases.push(little(&[CASE_A, b"\0\0\0"].concat()));
    cases.push(little(&many()));
    cases.extend(small_indexes().iter().map(Case::encoded));
    cases
}

/// The small indexes, cut at every byte: each time the whole one, and the one that is cut.
pub fn cuts() -> Vec<(Case, Case)> {
    let cuts = |section: &Section| {
        let whole = Case::encoded(section);
        damage::cut_everywhere(section).into_iter().map(move |cut| (whole.clone(), cut))
    };
    small_indexes().iter().flat_map(cuts).collect()
}

/// A small index in each format, one in each byte order.
fn small_indexes() -> [Section; 2] {
    [small(Order::Little, false), small(Order::Big, true)]
}

/// An index of 41 compile units and 50 names, and nothing else.
fn many() -> Vec<u8> {
    let mut out = Writer::new(Order::Little);
    out.u32(32 + 4 * 41 + 8 * 50);
    out.u16(5);
    out.u16(0);
    for count in [41, 0, 0, 0, 50, 0, 0] {
        out.u32(count);
    }
    for number in 0..41 + 50 + 50 {
        out.u32(number % 9);
    }
    out.bytes
}

/// An index that has one of everything, a padded augmentation, and numbers of one and two bytes in its abbreviation table.
fn small(order: Order, wide: bool) -> Section {
    let zeros = (vec![0], vec![0]);
    let declaration = Declaration {
        code: vec![0x80, 1],
        tag: vec![0x2e],
        pairs: vec![(vec![0x83, 0], vec![0x13]), (vec![4], vec![0x99, 0]), zeros],
    };
    let index = Index {
        wide,
        version: 5,
        padding: [0, 0],
        augmentation: b"LLVM0".to_vec(),
        compile_units: vec![7],
        local_type_units: vec![8],
        foreign_type_units: vec![9],
        buckets: vec![1],
        hashes: vec![10],
        string_offsets: vec![1],
        entry_offsets: vec![0],
        declarations: vec![declaration],
        table_end: vec![0],
        pool: vec![0x80, 1, 0x20, 0, 0, 0],
        wrong: Vec::new(),
    };
    Section { order, indexes: vec![index], strings: STRINGS.to_vec() }
}
