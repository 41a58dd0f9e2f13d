//! The records of the section query, which gimli does not have.

use crate::constants::DwTag;
use crate::numbers::{DebugInfoOffset, DebugNamesOffset, DebugTypeSignature, NameEntryOffset, NameTableIndex, UnitOffset};

/// Where an entry stands and what it describes, as [`DebugNames::query`](crate::DebugNames::query) writes it: its fields are public and lie
/// as C has them, and the methods give the numbers that the other calls take.
pub use crate::ffi::Record;

/// The unit that the DIE of a record belongs to: the type unit that its entry names, else the compilation unit that it names, else the only
/// one of its index.
///
/// An entry of a split build may name both a type unit and a compilation unit. The second tells which split file to load:
/// [`NameEntry::compile_unit`](crate::NameEntry::compile_unit) of [`NameIndex::name_entry`](crate::NameIndex::name_entry) gives it.
#[derive(Debug, Clone, Copy, PartialEq, Eq)]
pub enum RecordUnit {
    /// A compilation unit: that of the entry's attribute, or the only one of its index.
    Compile(DebugInfoOffset),
    /// A local type unit.
    LocalType(DebugInfoOffset),
    /// A foreign type unit.
    ForeignType(DebugTypeSignature),
}

impl Record {
    /// The place of the index's header.
    pub fn index(&self) -> DebugNamesOffset {
        DebugNamesOffset(self.index_offset.0 as usize)
    }

    /// The entry's offset in the pool of its index.
    pub fn entry(&self) -> NameEntryOffset {
        NameEntryOffset(self.entry_offset.0 as usize)
    }

    /// The name's number in its index.
    pub fn name(&self) -> NameTableIndex {
        self.name
    }

    /// The DIE tag.
    pub fn tag(&self) -> DwTag {
        DwTag(self.tag)
    }

    /// The unit, if the entry or its index says which.
    pub fn unit(&self) -> Option<RecordUnit> {
        let offset = DebugInfoOffset(self.unit_value as usize);
        match self.unit_kind {
            0 => None,
            1 => Some(RecordUnit::Compile(offset)),
            2 => Some(RecordUnit::LocalType(offset)),
            _ => Some(RecordUnit::ForeignType(DebugTypeSignature(self.unit_value))),
        }
    }

    /// The offset of the DIE from the start of the unit, if the entry says it.
    pub fn die_offset(&self) -> Option<UnitOffset> {
        (self.has_die_offset != 0).then_some(self.die_offset)
    }
}
