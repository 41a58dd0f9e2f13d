//! The calls of the library. All `unsafe` of this crate is here, but for one call in its tests.
//!
//! Why it is sound: each function is lent slices, as their first bytes and lengths, for the time of the call. It reads only these
//! bytes, keeps none of the pointers, and answers by value, whatever the other arguments hold. An empty slice has an address that is
//! not null. Only the query writes, and only to the records; a `&mut` is apart from what the other arguments lend.

use crate::error::{Error, Result};
use crate::ffi;
use crate::ffi::{Answer, BucketStep, Entry, HashCursor, HashStep, Header, HeaderStep, Index, Record, Str, Table};
use crate::numbers::{DebugStrOffset, NameEntryOffset, NameTableIndex};

/// A section of `.debug_names`, in a byte order: 0 is little, 1 is big.
#[derive(Debug, Clone, Copy)]
pub struct Section<'a> {
    pub bytes: &'a [u8],
    pub order: u32,
}

/// What every answer has: the number of a refusal or 0, and its value.
pub trait Outcome {
    fn status(&self) -> u32;
    fn value(&self) -> u64;

    /// The refusal as an error.
    ///
    /// An answer is looked at where it stands, field by field. To move it would load its fields, which the library has just stored one
    /// by one, in larger pieces, and a processor waits for that.
    #[inline]
    fn check(&self) -> Result<()> {
        if self.status() == 0 { Ok(()) } else { Err(Error::new(self.status(), self.value())) }
    }
}

macro_rules! outcomes {
    ($($answer:ty),+) => {
        $(impl Outcome for $answer {
            #[inline]
            fn status(&self) -> u32 {
                self.status
            }

            #[inline]
            fn value(&self) -> u64 {
                self.value
            }
        })+
    };
}
outcomes!(Answer, BucketStep, Entry, HashStep, Header, HeaderStep, Str, Table);

/// The next header, from a cursor.
#[inline]
pub fn next_header(section: Section, at: usize) -> HeaderStep {
    unsafe { ffi::debug_names_next_header(section.order, section.bytes.as_ptr(), section.bytes.len(), at) }
}

/// What else the header at a place says.
#[inline]
pub fn header_at(section: Section, at: usize) -> Header {
    unsafe { ffi::debug_names_header_at(section.order, section.bytes.as_ptr(), section.bytes.len(), at) }
}

/// Opens an index.
#[inline]
pub fn open(section: Section, index: Index) -> Answer {
    unsafe { ffi::debug_names_open(section.bytes.as_ptr(), section.bytes.len(), index) }
}

/// The calls that take the byte order, a section, an index and numbers.
macro_rules! index_calls {
    ($($name:ident: $call:ident($($argument:ident: $type:ty),*) -> $answer:ty;)+) => {
        $(#[inline]
        pub fn $name(section: Section, index: Index $(, $argument: $type)*) -> $answer {
            unsafe { ffi::$call(section.order, section.bytes.as_ptr(), section.bytes.len(), index $(, $argument)*) }
        })+
    };
}

index_calls! {
    compile_unit: debug_names_compile_unit(number: u32) -> Answer;
    local_type_unit: debug_names_local_type_unit(number: u32) -> Answer;
    foreign_type_unit: debug_names_foreign_type_unit(number: u32) -> Answer;
    type_unit: debug_names_type_unit(number: u32) -> Answer;
    default_compile_unit: debug_names_default_compile_unit() -> Answer;
    name_string_offset: debug_names_name_string_offset(name: NameTableIndex) -> Answer;
    find_by_bucket: debug_names_find_by_bucket(bucket: u32) -> Answer;
    next_in_bucket: debug_names_next_in_bucket(bucket: u32, name: NameTableIndex) -> BucketStep;
    find_by_hash: debug_names_find_by_hash(hash: u32) -> HashStep;
    next_by_hash: debug_names_next_by_hash(cursor: HashCursor) -> HashStep;
    check_table: debug_names_check_table() -> Table;
    name_entries: debug_names_name_entries(name: NameTableIndex) -> Answer;
    next_entry: debug_names_next_entry(at: usize) -> Entry;
    name_entry: debug_names_name_entry(offset: NameEntryOffset) -> Entry;
}

/// Where the string of a name stands.
#[inline]
pub fn name_string(section: Section, strings: &[u8], index: Index, name: NameTableIndex) -> Str {
    let (bytes, len) = (section.bytes.as_ptr(), section.bytes.len());
    unsafe { ffi::debug_names_name_string(section.order, bytes, len, strings.as_ptr(), strings.len(), index, name) }
}

/// Where the string at an offset stands.
#[inline]
pub fn get_str(strings: &[u8], offset: DebugStrOffset) -> Str {
    unsafe { ffi::debug_names_get_str(strings.as_ptr(), strings.len(), offset) }
}

/// The section query.
#[inline]
pub fn query(section: Section, strings: &[u8], hash: u32, name: &[u8], records: &mut [Record]) -> Answer {
    unsafe {
        ffi::debug_names_query(
            section.order,
            section.bytes.as_ptr(),
            section.bytes.len(),
            strings.as_ptr(),
            strings.len(),
            hash,
            name.as_ptr(),
            name.len(),
            records.as_mut_ptr(),
            records.len(),
        )
    }
}
