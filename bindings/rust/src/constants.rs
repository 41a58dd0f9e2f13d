//! DWARF's numbers that the reader hands out or refuses.

/// The tag of a debugging information entry (`DW_TAG_*`).
#[derive(Debug, Clone, Copy, PartialEq, Eq, PartialOrd, Ord, Hash)]
pub struct DwTag(pub u16);

/// The form of an attribute (`DW_FORM_*`).
#[derive(Debug, Clone, Copy, PartialEq, Eq, PartialOrd, Ord, Hash)]
pub struct DwForm(pub u16);
