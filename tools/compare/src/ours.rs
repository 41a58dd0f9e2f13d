//! The functions of the library on a lent section.

use crate::ffi::*;
use crate::numbers::{DebugStrOffset, NameEntryOffset, NameTableIndex};

/// What is lent: .debug_names in a byte order, and .debug_str.
#[derive(Clone, Copy)]
pub struct Ours<'a> {
    pub order: u32,
    pub names: &'a [u8],
    pub strings: &'a [u8],
}

/// The methods of functions that take the section and a handle alone.
macro_rules! plain {
    ($($name:ident $function:ident)+) => {
        $(pub fn $name(&self, index: Index) -> Answer {
            unsafe { $function(self.names.as_ptr(), self.names.len(), index) }
        })+
    };
}

/// Those of functions that take the byte order, the section, a handle, and numbers behind them.
macro_rules! ordered {
    ($($name:ident $function:ident ($($argument:ident: $type:ty),*) -> $answer:ty)+) => {
        $(pub fn $name(&self, index: Index, $($argument: $type),*) -> $answer {
            unsafe { $function(self.order, self.names.as_ptr(), self.names.len(), index, $($argument),*) }
        })+
    };
}

impl Ours<'_> {
    pub fn next_header(&self, at: usize) -> HeaderStep {
        unsafe { debug_names_next_header(self.order, self.names.as_ptr(), self.names.len(), at) }
    }

    pub fn header_at(&self, at: usize) -> Header {
        unsafe { debug_names_header_at(self.order, self.names.as_ptr(), self.names.len(), at) }
    }

    plain! {
        open debug_names_open
        compile_unit_count debug_names_compile_unit_count
        local_type_unit_count debug_names_local_type_unit_count
        foreign_type_unit_count debug_names_foreign_type_unit_count
        type_unit_count debug_names_type_unit_count
        bucket_count debug_names_bucket_count
        name_count debug_names_name_count
        has_hash_table debug_names_has_hash_table
    }

    ordered! {
        compile_unit debug_names_compile_unit(number: u32) -> Answer
        local_type_unit debug_names_local_type_unit(number: u32) -> Answer
        foreign_type_unit debug_names_foreign_type_unit(number: u32) -> Answer
        type_unit debug_names_type_unit(number: u32) -> Answer
        default_compile_unit debug_names_default_compile_unit() -> Answer
        name_string_offset debug_names_name_string_offset(name: NameTableIndex) -> Answer
        find_by_bucket debug_names_find_by_bucket(bucket: u32) -> Answer
        next_in_bucket debug_names_next_in_bucket(bucket: u32, name: NameTableIndex) -> BucketStep
        find_by_hash debug_names_find_by_hash(hash: u32) -> HashStep
        next_by_hash debug_names_next_by_hash(cursor: HashCursor) -> HashStep
        check_table debug_names_check_table() -> Table
        name_entries debug_names_name_entries(name: NameTableIndex) -> Answer
        next_entry debug_names_next_entry(at: usize) -> Entry
        name_entry debug_names_name_entry(offset: NameEntryOffset) -> Entry
    }

    pub fn name_string(&self, index: Index, name: NameTableIndex) -> Str {
        let (names, strings) = (self.names, self.strings);
        unsafe { debug_names_name_string(self.order, names.as_ptr(), names.len(), strings.as_ptr(), strings.len(), index, name) }
    }

    pub fn get_str(&self, offset: DebugStrOffset) -> Str {
        unsafe { debug_names_get_str(self.strings.as_ptr(), self.strings.len(), offset) }
    }

    /// The query lends the first `lent` of the records; the others stand behind them.
    pub fn query(&self, hash: u32, name: &[u8], records: &mut [Record], lent: usize) -> Answer {
        let (names, strings) = (self.names, self.strings);
        assert!(lent <= records.len());
        unsafe {
            debug_names_query(
                self.order,
                names.as_ptr(),
                names.len(),
                strings.as_ptr(),
                strings.len(),
                hash,
                name.as_ptr(),
                name.len(),
                records.as_mut_ptr(),
                lent,
            )
        }
    }
}
