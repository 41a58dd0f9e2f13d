//! The strings of `.debug_str`.

use crate::calls::{self, Outcome};
use crate::common::Endianity;
use crate::error::Result;
use crate::ffi::Str;
use crate::numbers::DebugStrOffset;

/// The strings of the `.debug_str` section.
#[derive(Debug, Default, Clone, Copy)]
pub struct DebugStr<'a> {
    pub(crate) bytes: &'a [u8],
}

impl<'a> DebugStr<'a> {
    /// The data of the section. Strings have no byte order: the second argument is there since gimli has it.
    pub fn new<Endian: Endianity>(debug_str_section: &'a [u8], _endian: Endian) -> Self {
        DebugStr { bytes: debug_str_section }
    }

    /// The string at an offset, without its zero byte: the caller's own bytes.
    #[inline]
    pub fn get_str(&self, offset: DebugStrOffset) -> Result<&'a [u8]> {
        self.part(&calls::get_str(self.bytes, offset))
    }

    /// The bytes of a string that the library found.
    #[inline]
    pub(crate) fn part(&self, string: &Str) -> Result<&'a [u8]> {
        string.check()?;
        let start = string.value as usize;
        Ok(&self.bytes[start..start + string.len])
    }
}
