//! Numbers that stand for something, under the names that gimli gives them: types that do not mix.
//!
//! Each is one number. Those that cross to the library do so as that number; the others are made of a `value`.

/// An offset into the `.debug_info` section.
#[repr(transparent)]
#[derive(Debug, Clone, Copy, PartialEq, Eq, Ord, PartialOrd, Hash)]
pub struct DebugInfoOffset<T = usize>(pub T);

/// An offset into the `.debug_names` section.
#[repr(transparent)]
#[derive(Debug, Default, Clone, Copy, PartialEq, Eq, Hash)]
pub struct DebugNamesOffset<T = usize>(pub T);

/// An offset into the `.debug_str` section.
#[repr(transparent)]
#[derive(Debug, Clone, Copy, PartialEq, Eq)]
pub struct DebugStrOffset<T = usize>(pub T);

/// A type signature.
#[repr(transparent)]
#[derive(Debug, Clone, Copy, PartialEq, Eq, Hash)]
pub struct DebugTypeSignature(pub u64);

/// An offset from the start of a compilation or type unit.
#[repr(transparent)]
#[derive(Debug, Default, Clone, Copy, PartialEq, Eq, Ord, PartialOrd, Hash)]
pub struct UnitOffset<T = usize>(pub T);

/// An offset into the entry pool of a name index.
#[repr(transparent)]
#[derive(Debug, Default, Clone, Copy, PartialEq, Eq, Ord, PartialOrd, Hash)]
pub struct NameEntryOffset<T = usize>(pub T);

/// An index into the name table of a `NameIndex`, counted from 0.
#[repr(transparent)]
#[derive(Debug, Default, Clone, Copy, PartialEq, Eq)]
pub struct NameTableIndex(pub u32);
