//! A reader of the DWARF 5 section `.debug_names`: the section that says where the function or type of a name is described.
//!
//! The functions are those of `libdebug_names.a`, which is written in Rattle and proved: on any bytes each call ends, reads only
//! what it is lent, and answers or refuses as its specification says. This crate adds Rust types to them, and [`NameIndex::lost_name`],
//! which asks two of them. What is proved ends at the library: this crate is tested.
//!
//! `rt lib`, run in `crates/debug_names`, makes the library where this crate looks for it. The environment variable
//! DEBUG_NAMES_LIB names another folder that has it.
//!
//! ```no_run
//! use debug_names::{DebugNames, DebugStr, LittleEndian};
//!
//! # let (names_section, str_section): (&[u8], &[u8]) = (&[], &[]);
//! let debug_names = DebugNames::new(names_section, LittleEndian);
//! let debug_str = DebugStr::new(str_section, LittleEndian);
//! for header in debug_names.headers() {
//!     let index = header?.index()?;
//!     for name in index.names() {
//!         println!("{:?}", index.name_string(name, &debug_str)?);
//!     }
//! }
//! # Ok::<(), debug_names::Error>(())
//! ```
//!
//! # gimli's interface
//!
//! Types, methods, errors and answers are those of gimli 0.34.0's `read/names.rs`, so that code for it needs another `use` line and
//! little else. What differs:
//!
//! - A section is a `&'a [u8]`. There is no `Reader`: `DebugNames<'a>`, `NameIndex<'a>` and so on stand for `DebugNames<R>` and
//!   `NameIndex<R>`, offsets are `usize`, and strings are `&'a [u8]` where gimli has an `EndianSlice`. `DebugNames::borrow`, `From`
//!   and the trait `Section` are left out. The iterators over a bucket and over a hash borrow their index.
//! - [`NameEntry`] has its facts (units, DIE offset, parent, type hash) and no list `attrs`; `NameIndex::abbreviations` and the types
//!   of attributes and abbreviations are left out.
//! - [`Error`] has the errors that this section can give. `UnexpectedEof` carries a place in the section, not an address. Two are
//!   added: `SectionTooLong` for more than 2,147,483,647 bytes, and `DoesNotFit`, which no value of these types gives.
//!   [`Error::number`], [`Error::value`] and [`Error::name`] are added.
//! - LEB128 numbers may be padded to any length. gimli refuses one whose tenth byte, or third where it has 16 bits, has the continuation
//!   bit.
//! - Added are [`DebugNames::query`], the search in all indexes of a section, [`NameIndex::check_table`], which says whether a lookup
//!   by hash can miss a name, and [`NameIndex::lost_name`], the first name that is missed, with its string.
//!
//! Computing the hash of a name is left to the caller, as in gimli.

mod calls;
mod common;
pub mod constants;
mod error;
// The counts of an index are read from its handle: the calls that give them stay unused.
#[allow(dead_code)]
mod ffi;
mod names;
mod numbers;
mod query;
mod str;

pub use common::*;
pub use constants::*;
pub use error::*;
pub use names::*;
pub use numbers::*;
pub use query::*;
pub use str::*;

#[cfg(test)]
mod tests;
