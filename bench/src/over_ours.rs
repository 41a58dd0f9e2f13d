//! The work over this reader, through its Rust crate.

pub use debug_names::{DebugNames, DebugStr, Error, LittleEndian, NameTableIndex, NameTypeUnit};
use debug_names::{NameEntry, NameIndex, TableCheck};

pub type Names<'a> = DebugNames<'a>;
pub type Strings<'a> = DebugStr<'a>;
pub type Index<'a> = NameIndex<'a>;
/// An entry here has no bytes of the section.
pub type Entry<'a> = NameEntry;

// The section query and the table check are calls of this reader, so that the ones over its other calls stay unused.
#[allow(dead_code)]
#[path = "work.rs"]
pub mod work;

/// The table check: how many names are missed.
pub fn missed(index: &Index) -> Result<u64, Error> {
    Ok(match index.check_table()? {
        TableCheck::Incomplete(table) => table.missed.into(),
        TableCheck::Complete | TableCheck::NoTable => 0,
    })
}
