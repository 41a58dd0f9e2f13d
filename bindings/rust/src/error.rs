//! Why a call says no.

use crate::constants::DwForm;
use std::fmt;

/// Where a read past the end began.
///
/// gimli has an address of the reader's memory here. This is a place: a byte offset from the start of the section that was read.
#[derive(Debug, Clone, Copy, PartialEq, Eq, Hash)]
pub struct ReaderOffsetId(pub u64);

/// A refusal, under gimli's name for it and with its payload.
///
/// SPECIFICATION 2.1 of the reader numbers them: see [`Error::number`]. The last two are added.
#[derive(Debug, Clone, Copy, PartialEq, Eq)]
#[non_exhaustive]
pub enum Error {
    /// 1. Hit the end of input before it was expected.
    UnexpectedEof(ReaderOffsetId),
    /// 2. Found an unknown reserved length value.
    UnknownReservedLength(u32),
    /// 3. Found an unknown DWARF version.
    UnknownVersion(u64),
    /// 4. An abbreviation declared that its tag is zero.
    AbbreviationTagZero,
    /// 5. An attribute specification declared that its name is zero.
    AttributeNameZero,
    /// 6. An attribute specification declared that its form is zero.
    AttributeFormZero,
    /// 7. An error parsing an unsigned LEB128 value.
    BadUnsignedLeb128,
    /// 8. Found an entry with an invalid abbreviation code.
    InvalidAbbreviationCode(u64),
    /// 9. Found an unknown `DW_FORM_*` type.
    UnknownForm(DwForm),
    /// 10. Did not find an entry at the given offset.
    NoEntryAtGivenOffset(u64),
    /// 11. Invalid index in an attribute value.
    InvalidNameAttributeIndex(u64),
    /// 12. An attribute used an unsupported form.
    UnsupportedAttributeForm(DwForm),
    /// 13, not in gimli. A section is longer than 2,147,483,647 bytes.
    SectionTooLong,
    /// 14, not in gimli. An index or a cursor does not fit the section.
    DoesNotFit,
}

/// The result of a call.
pub type Result<T> = std::result::Result<T, Error>;

impl Error {
    /// The refusal that the library has under a number, with its value. It has no other numbers than these.
    #[cold]
    pub(crate) fn new(number: u32, value: u64) -> Error {
        match number {
            1 => Error::UnexpectedEof(ReaderOffsetId(value)),
            2 => Error::UnknownReservedLength(value as u32),
            3 => Error::UnknownVersion(value),
            4 => Error::AbbreviationTagZero,
            5 => Error::AttributeNameZero,
            6 => Error::AttributeFormZero,
            7 => Error::BadUnsignedLeb128,
            8 => Error::InvalidAbbreviationCode(value),
            9 => Error::UnknownForm(DwForm(value as u16)),
            10 => Error::NoEntryAtGivenOffset(value),
            11 => Error::InvalidNameAttributeIndex(value),
            12 => Error::UnsupportedAttributeForm(DwForm(value as u16)),
            13 => Error::SectionTooLong,
            14 => Error::DoesNotFit,
            other => unreachable!("the library has no refusal {other}"),
        }
    }

    /// The number of the refusal, 1 to 14 (SPECIFICATION 2.1).
    pub fn number(&self) -> u8 {
        match self {
            Error::UnexpectedEof(_) => 1,
            Error::UnknownReservedLength(_) => 2,
            Error::UnknownVersion(_) => 3,
            Error::AbbreviationTagZero => 4,
            Error::AttributeNameZero => 5,
            Error::AttributeFormZero => 6,
            Error::BadUnsignedLeb128 => 7,
            Error::InvalidAbbreviationCode(_) => 8,
            Error::UnknownForm(_) => 9,
            Error::NoEntryAtGivenOffset(_) => 10,
            Error::InvalidNameAttributeIndex(_) => 11,
            Error::UnsupportedAttributeForm(_) => 12,
            Error::SectionTooLong => 13,
            Error::DoesNotFit => 14,
        }
    }

    /// The one value that the refusal carries, 0 where it carries none.
    pub fn value(&self) -> u64 {
        match *self {
            Error::UnexpectedEof(ReaderOffsetId(place)) => place,
            Error::UnknownReservedLength(length) => length.into(),
            Error::UnknownForm(form) | Error::UnsupportedAttributeForm(form) => form.0.into(),
            Error::UnknownVersion(value)
            | Error::InvalidAbbreviationCode(value)
            | Error::NoEntryAtGivenOffset(value)
            | Error::InvalidNameAttributeIndex(value) => value,
            _ => 0,
        }
    }

    /// gimli's name of the refusal; the last two have one of the same kind.
    pub fn name(&self) -> &'static str {
        match self {
            Error::UnexpectedEof(_) => "UnexpectedEof",
            Error::UnknownReservedLength(_) => "UnknownReservedLength",
            Error::UnknownVersion(_) => "UnknownVersion",
            Error::AbbreviationTagZero => "AbbreviationTagZero",
            Error::AttributeNameZero => "AttributeNameZero",
            Error::AttributeFormZero => "AttributeFormZero",
            Error::BadUnsignedLeb128 => "BadUnsignedLeb128",
            Error::InvalidAbbreviationCode(_) => "InvalidAbbreviationCode",
            Error::UnknownForm(_) => "UnknownForm",
            Error::NoEntryAtGivenOffset(_) => "NoEntryAtGivenOffset",
            Error::InvalidNameAttributeIndex(_) => "InvalidNameAttributeIndex",
            Error::UnsupportedAttributeForm(_) => "UnsupportedAttributeForm",
            Error::SectionTooLong => "SectionTooLong",
            Error::DoesNotFit => "DoesNotFit",
        }
    }
}

/// gimli's texts, and the place of a read past the end.
impl fmt::Display for Error {
    fn fmt(&self, f: &mut fmt::Formatter<'_>) -> fmt::Result {
        let value = self.value();
        match self {
            Error::UnexpectedEof(_) => write!(f, "unexpected end of input at 0x{value:x}"),
            Error::UnknownReservedLength(_) => write!(f, "unknown reserved length: 0x{value:x}"),
            Error::UnknownVersion(_) => write!(f, "unknown DWARF version: {value}"),
            Error::AbbreviationTagZero => write!(f, "invalid abbreviation tag: zero"),
            Error::AttributeNameZero => write!(f, "invalid attribute name: zero"),
            Error::AttributeFormZero => write!(f, "invalid attribute form: zero"),
            Error::BadUnsignedLeb128 => write!(f, "unsigned LEB128 overflow"),
            Error::InvalidAbbreviationCode(_) => write!(f, "invalid abbreviation code: {value}"),
            Error::UnknownForm(_) => write!(f, "unknown attribute form: 0x{value:x}"),
            Error::NoEntryAtGivenOffset(_) => write!(f, "no entry at offset: 0x{value:x}"),
            Error::InvalidNameAttributeIndex(_) => {
                write!(f, "invalid index in name attribute: 0x{value:x}")
            }
            Error::UnsupportedAttributeForm(_) => {
                write!(f, "unsupported attribute form: 0x{value:x}")
            }
            Error::SectionTooLong => write!(f, "section longer than 2147483647 bytes"),
            Error::DoesNotFit => write!(f, "index or cursor does not fit the section"),
        }
    }
}

impl std::error::Error for Error {}
