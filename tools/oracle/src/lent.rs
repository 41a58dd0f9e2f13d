//! The two sections of a case, lent to gimli, and gimli's errors as document 01's refusals.

use crate::bytes::Order;
use crate::case::Case;
use gimli::{Error, RunTimeEndian};

pub use crate::reader::Bytes;

/// The bytes around and between the two sections: an address belongs to one section at most, also where it is a section's end.
const GAP: usize = 64;

/// Both sections in one piece of memory.
pub struct Memory {
    bytes: Vec<u8>,
    order: RunTimeEndian,
    names: usize,
    strings: usize,
}

impl Memory {
    pub fn of(case: &Case) -> Memory {
        // The gaps are not zero, so that a string that ran on past its section would not seem to end there.
        let gap = [0xa5; GAP];
        let bytes = [&gap[..], &case.names[..], &gap[..], &case.strings[..], &gap[..]].concat();
        let order = match case.order {
            Order::Little => RunTimeEndian::Little,
            Order::Big => RunTimeEndian::Big,
        };
        Memory { bytes, order, names: case.names.len(), strings: case.strings.len() }
    }

    pub fn lend(&self) -> Lent<'_> {
        let part = |from: usize, len: usize| Bytes::new(&self.bytes[from..from + len], self.order);
        Lent { names: part(GAP, self.names), strings: part(GAP + self.names + GAP, self.strings) }
    }
}

/// The two sections of a case.
#[derive(Clone, Copy)]
pub struct Lent<'a> {
    pub names: Bytes<'a>,
    pub strings: Bytes<'a>,
}

/// A refusal: document 01's number and value.
pub struct Refusal {
    pub number: u8,
    pub value: u64,
}

impl Lent<'_> {
    /// The refusal of an error. An address becomes a place in the section that holds it.
    pub fn refusal(&self, error: Error) -> Refusal {
        let (number, value) = match error {
            Error::UnexpectedEof(id) => (1, self.place(id.0)),
            Error::UnknownReservedLength(length) => (2, length.into()),
            Error::UnknownVersion(version) => (3, version),
            Error::AbbreviationTagZero => (4, 0),
            Error::AttributeNameZero => (5, 0),
            Error::AttributeFormZero => (6, 0),
            Error::BadUnsignedLeb128 => (7, 0),
            Error::InvalidAbbreviationCode(code) => (8, code),
            Error::UnknownForm(form) => (9, form.0.into()),
            Error::NoEntryAtGivenOffset(offset) => (10, offset),
            Error::InvalidNameAttributeIndex(value) => (11, value),
            Error::UnsupportedAttributeForm(form) => (12, form.0.into()),
            other => panic!("an error that document 01 does not have: {other:?}"),
        };
        Refusal { number, value }
    }

    fn place(&self, address: u64) -> u64 {
        for section in [self.names, self.strings] {
            let start = section.slice().as_ptr() as u64;
            if start <= address && address <= start + section.slice().len() as u64 {
                return address - start;
            }
        }
        panic!("an address that lies in neither section");
    }
}
