//! The work over gimli. Its byte order is fixed when it is compiled, which is the fastest that gimli has.

pub use gimli::{DebugNames, DebugStr, Error, LittleEndian, NameTableIndex, NameTypeUnit};
use gimli::{EndianSlice, NameEntry, NameIndex};

type Bytes<'a> = EndianSlice<'a, LittleEndian>;
pub type Names<'a> = DebugNames<Bytes<'a>>;
pub type Strings<'a> = DebugStr<Bytes<'a>>;
pub type Index<'a> = NameIndex<Bytes<'a>>;
pub type Entry<'a> = NameEntry<Bytes<'a>>;

#[path = "work.rs"]
pub mod work;
