//! In the place of gimli's own lib.rs: its files, unmodified, at the root that they expect, with the names that it re-exports.
//! build.rs says where the files come from.
#![allow(dead_code, unexpected_cfgs, unused_imports)]

extern crate alloc;

// gimli's common, endianity, leb128 and read.
include!(concat!(env!("OUT_DIR"), "/modules.rs"));

pub mod constants;

pub use common::*;
pub use endianity::*;
pub use read::*;

// The makers of sections and the calls on them, for the program of this package and for tools/compare; src/main.rs says what is where.
// They name gimli as from outside.
extern crate self as gimli;

pub mod answers;
pub mod bytes;
pub mod case;
pub mod check;
pub mod damage;
pub mod entries;
pub mod fixed;
pub mod hashes;
pub mod leb128_7_6;
pub mod lent;
pub mod model;
pub mod padded;
pub mod parsed;
pub mod pool;
pub mod query;
pub mod random;
pub mod reader;
pub mod real;
pub mod several;
pub mod tables;
pub mod valid;
