//! The functions of `libdebug_names.a`, as `include/debug_names.h` declares and describes them.
//!
//! A `value` is a plain number, since it also holds what a refusal carries. The structs have the header's names without `debug_names_`; a string
//! is a `Str`, since `String` is Rust's own.

use crate::numbers::{DebugNamesOffset, DebugStrOffset, NameEntryOffset, NameTableIndex, UnitOffset};

/// An answer: `status` is 0 or the number of the refusal; `value` is the answer's number, or the refusal's value.
#[repr(C)]
#[derive(Clone, Copy, Debug, Default, PartialEq, Eq)]
pub struct Answer {
    pub status: u32,
    pub kind: u32,
    pub value: u64,
}

/// An index: a handle, by value.
#[repr(C)]
#[derive(Clone, Copy, Debug, Default, PartialEq, Eq)]
pub struct Index {
    pub begin: usize,
    pub end: usize,
    pub compile_unit_count: u32,
    pub local_type_unit_count: u32,
    pub foreign_type_unit_count: u32,
    pub bucket_count: u32,
    pub name_count: u32,
    pub abbrev_table_size: u32,
    pub format: u32,
}

/// A step over the headers.
#[repr(C)]
#[derive(Clone, Copy, Debug, Default, PartialEq, Eq)]
pub struct HeaderStep {
    pub status: u32,
    pub kind: u32,
    pub value: u64,
    pub next: usize,
    pub index: Index,
}

/// What else a header says.
#[repr(C)]
#[derive(Clone, Copy, Debug, Default, PartialEq, Eq)]
pub struct Header {
    pub status: u32,
    pub kind: u32,
    pub value: u64,
    pub augmentation: usize,
    pub augmentation_len: usize,
    pub version: u32,
}

/// Where a string of .debug_str stands.
#[repr(C)]
#[derive(Clone, Copy, Debug, Default, PartialEq, Eq)]
pub struct Str {
    pub status: u32,
    pub kind: u32,
    pub value: u64,
    pub len: usize,
}

/// A step over the names of a bucket.
#[repr(C)]
#[derive(Clone, Copy, Debug, Default, PartialEq, Eq)]
pub struct BucketStep {
    pub status: u32,
    pub kind: u32,
    pub value: u64,
    pub hash: u32,
    pub next: NameTableIndex,
}

/// A cursor over the names that store a hash.
#[repr(C)]
#[derive(Clone, Copy, Debug, Default, PartialEq, Eq)]
pub struct HashCursor {
    pub hash: u32,
    pub has_bucket: u32,
    pub bucket: u32,
    pub name: NameTableIndex,
}

/// A lookup by hash, or a step of it.
#[repr(C)]
#[derive(Clone, Copy, Debug, Default, PartialEq, Eq)]
pub struct HashStep {
    pub status: u32,
    pub kind: u32,
    pub value: u64,
    pub next: HashCursor,
}

/// What the table check says.
#[repr(C)]
#[derive(Clone, Copy, Debug, Default, PartialEq, Eq)]
pub struct Table {
    pub status: u32,
    pub kind: u32,
    pub value: u64,
    pub name: NameTableIndex,
    pub hash: u32,
}

/// The five facts of an entry.
#[repr(C)]
#[derive(Clone, Copy, Debug, Default, PartialEq, Eq)]
pub struct Facts {
    pub compile_unit: Answer,
    pub type_unit: Answer,
    pub die_offset: Answer,
    pub parent: Answer,
    pub type_hash: Answer,
}

/// An entry with its facts, or the end of a series.
#[repr(C)]
#[derive(Clone, Copy, Debug, Default, PartialEq, Eq)]
pub struct Entry {
    pub status: u32,
    pub kind: u32,
    pub value: u64,
    pub next: usize,
    pub abbrev_code: u64,
    pub facts: Facts,
    pub tag: u32,
}

/// A record of the section query.
#[repr(C)]
#[derive(Clone, Copy, Debug, Default, PartialEq, Eq)]
pub struct Record {
    pub unit_value: u64,
    pub die_offset: UnitOffset,
    pub index_offset: DebugNamesOffset<u32>,
    pub entry_offset: NameEntryOffset<u32>,
    pub name: NameTableIndex,
    pub tag: u16,
    pub unit_kind: u8,
    pub has_die_offset: u8,
}

const _: () = assert!(size_of::<Record>() == 32);
const _: () = assert!(size_of::<Index>() == 48);
const _: () = assert!(size_of::<Table>() == 24);

#[rustfmt::skip]
unsafe extern "C" {
    pub fn debug_names_next_header(order: u32, section: *const u8, section_len: usize, at: usize) -> HeaderStep;
    pub fn debug_names_header_at(order: u32, section: *const u8, section_len: usize, at: usize) -> Header;
    pub fn debug_names_open(section: *const u8, section_len: usize, index: Index) -> Answer;

    pub fn debug_names_compile_unit_count(section: *const u8, section_len: usize, index: Index) -> Answer;
    pub fn debug_names_local_type_unit_count(section: *const u8, section_len: usize, index: Index) -> Answer;
    pub fn debug_names_foreign_type_unit_count(section: *const u8, section_len: usize, index: Index) -> Answer;
    pub fn debug_names_type_unit_count(section: *const u8, section_len: usize, index: Index) -> Answer;
    pub fn debug_names_bucket_count(section: *const u8, section_len: usize, index: Index) -> Answer;
    pub fn debug_names_name_count(section: *const u8, section_len: usize, index: Index) -> Answer;
    pub fn debug_names_has_hash_table(section: *const u8, section_len: usize, index: Index) -> Answer;

    pub fn debug_names_compile_unit(order: u32, section: *const u8, section_len: usize, index: Index, number: u32) -> Answer;
    pub fn debug_names_local_type_unit(order: u32, section: *const u8, section_len: usize, index: Index, number: u32) -> Answer;
    pub fn debug_names_foreign_type_unit(order: u32, section: *const u8, section_len: usize, index: Index, number: u32) -> Answer;
    pub fn debug_names_type_unit(order: u32, section: *const u8, section_len: usize, index: Index, number: u32) -> Answer;
    pub fn debug_names_default_compile_unit(order: u32, section: *const u8, section_len: usize, index: Index) -> Answer;

    pub fn debug_names_name_string_offset(order: u32, section: *const u8, section_len: usize, index: Index, name: NameTableIndex) -> Answer;
    pub fn debug_names_name_string(order: u32, section: *const u8, section_len: usize, strings: *const u8, strings_len: usize, index: Index, name: NameTableIndex) -> Str;
    pub fn debug_names_get_str(strings: *const u8, strings_len: usize, offset: DebugStrOffset) -> Str;

    pub fn debug_names_find_by_bucket(order: u32, section: *const u8, section_len: usize, index: Index, bucket: u32) -> Answer;
    pub fn debug_names_next_in_bucket(order: u32, section: *const u8, section_len: usize, index: Index, bucket: u32, name: NameTableIndex) -> BucketStep;
    pub fn debug_names_find_by_hash(order: u32, section: *const u8, section_len: usize, index: Index, hash: u32) -> HashStep;
    pub fn debug_names_next_by_hash(order: u32, section: *const u8, section_len: usize, index: Index, cursor: HashCursor) -> HashStep;
    pub fn debug_names_check_table(order: u32, section: *const u8, section_len: usize, index: Index) -> Table;

    pub fn debug_names_name_entries(order: u32, section: *const u8, section_len: usize, index: Index, name: NameTableIndex) -> Answer;
    pub fn debug_names_next_entry(order: u32, section: *const u8, section_len: usize, index: Index, at: usize) -> Entry;
    pub fn debug_names_name_entry(order: u32, section: *const u8, section_len: usize, index: Index, offset: NameEntryOffset) -> Entry;

    pub fn debug_names_query(order: u32, section: *const u8, section_len: usize, strings: *const u8, strings_len: usize, hash: u32, name: *const u8, name_len: usize, records: *mut Record, records_len: usize) -> Answer;
}
