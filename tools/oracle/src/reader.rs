//! What gimli reads from: its own reader of slices, with the LEB128 readings of section 7.6 in the place of its own.

use std::borrow::Cow;
use std::fmt::{self, Debug};

use crate::leb128_7_6;
use gimli::{EndianSlice, Reader, ReaderOffsetId, Result, RunTimeEndian};

/// Some bytes and their byte order. All is handed on to gimli's reader but the two LEB128 readings by which gimli's names.rs reads, and
/// these are held to gimli's own where no number is longer than gimli reads.
#[derive(Clone, Copy)]
pub struct Bytes<'a>(EndianSlice<'a, RunTimeEndian>);

impl<'a> Bytes<'a> {
    pub fn new(bytes: &'a [u8], order: RunTimeEndian) -> Bytes<'a> {
        Bytes(EndianSlice::new(bytes, order))
    }

    pub fn slice(&self) -> &'a [u8] {
        self.0.slice()
    }
}

/// The text of gimli's reader: the places of gimli's cursors are found in it.
impl Debug for Bytes<'_> {
    fn fmt(&self, out: &mut fmt::Formatter) -> fmt::Result {
        self.0.fmt(out)
    }
}

impl Reader for Bytes<'_> {
    type Endian = RunTimeEndian;
    type Offset = usize;

    fn read_uleb128(&mut self) -> Result<u64> {
        leb128_7_6::unsigned(self)
    }

    fn read_uleb128_u16(&mut self) -> Result<u16> {
        leb128_7_6::u16(self)
    }

    // What gimli's reader has of its own. All else is what gimli makes of these for every reader.

    fn endian(&self) -> RunTimeEndian {
        self.0.endian()
    }

    fn len(&self) -> usize {
        self.0.len()
    }

    fn is_empty(&self) -> bool {
        self.0.is_empty()
    }

    fn read_u8(&mut self) -> Result<u8> {
        self.0.read_u8()
    }

    fn empty(&mut self) {
        self.0.empty();
    }

    fn truncate(&mut self, len: usize) -> Result<()> {
        self.0.truncate(len)
    }

    fn offset_from(&self, base: &Self) -> usize {
        self.0.offset_from(base.0)
    }

    fn offset_id(&self) -> ReaderOffsetId {
        self.0.offset_id()
    }

    fn lookup_offset_id(&self, id: ReaderOffsetId) -> Option<usize> {
        self.0.lookup_offset_id(id)
    }

    fn find(&self, byte: u8) -> Result<usize> {
        Reader::find(&self.0, byte)
    }

    fn skip(&mut self, len: usize) -> Result<()> {
        self.0.skip(len)
    }

    fn split(&mut self, len: usize) -> Result<Self> {
        self.0.split(len).map(Bytes)
    }

    fn to_slice(&self) -> Result<Cow<'_, [u8]>> {
        self.0.to_slice()
    }

    fn to_string(&self) -> Result<Cow<'_, str>> {
        Reader::to_string(&self.0)
    }

    fn to_string_lossy(&self) -> Result<Cow<'_, str>> {
        Reader::to_string_lossy(&self.0)
    }

    fn read_slice(&mut self, buffer: &mut [u8]) -> Result<()> {
        Reader::read_slice(&mut self.0, buffer)
    }
}
