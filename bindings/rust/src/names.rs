//! The `.debug_names` section: gimli's types and methods over the library's calls.

use crate::calls::{self, Outcome, Section};
use crate::common::{Endianity, Format};
use crate::constants::DwTag;
use crate::error::Result;
use crate::ffi::{self, Answer, Facts, HashCursor, Index};
use crate::numbers::{DebugInfoOffset, DebugNamesOffset, DebugStrOffset, DebugTypeSignature, NameEntryOffset, NameTableIndex, UnitOffset};
use crate::query::Record;
use crate::str::DebugStr;

/// The `.debug_names` section.
#[derive(Debug, Clone, Copy)]
pub struct DebugNames<'a> {
    section: Section<'a>,
}

impl<'a> DebugNames<'a> {
    /// The data of the section, in its byte order.
    pub fn new<Endian: Endianity>(debug_names_section: &'a [u8], endian: Endian) -> Self {
        DebugNames { section: Section { bytes: debug_names_section, order: endian.is_big_endian().into() } }
    }

    /// Iterate over all name indexes in the section.
    pub fn headers(&self) -> NameIndexHeaderIter<'a> {
        NameIndexHeaderIter { section: self.section, at: 0, done: false }
    }

    /// Where the function or type of a name is described, over all indexes of the section; not in gimli.
    ///
    /// `hash` is the hash of the name (DWARF 5, 6.1.1.4.5). Returns the number of all entries of the name, and writes the first of
    /// them to `records`, as many as there is room for. The other records keep their contents, and so do all where there is an error.
    #[inline]
    pub fn query(&self, debug_str: &DebugStr<'_>, hash: u32, name: &[u8], records: &mut [Record]) -> Result<u64> {
        let total = calls::query(self.section, debug_str.bytes, hash, name, records);
        total.check()?;
        Ok(total.value)
    }
}

/// An iterator over the name index headers in the section.
#[derive(Debug, Clone)]
pub struct NameIndexHeaderIter<'a> {
    section: Section<'a>,
    at: usize,
    /// After a refusal there are no more headers.
    done: bool,
}

impl<'a> NameIndexHeaderIter<'a> {
    /// The next name index header, `Ok(None)` at the end.
    #[inline]
    #[allow(clippy::should_implement_trait)]
    pub fn next(&mut self) -> Result<Option<NameIndexHeader<'a>>> {
        if self.done {
            return Ok(None);
        }
        let step = calls::next_header(self.section, self.at);
        self.at = step.next;
        self.done = step.status != 0;
        step.check()?;
        let header = NameIndexHeader { section: self.section, place: step.value as usize, handle: step.index };
        Ok(is_there(step.kind).then_some(header))
    }
}

impl<'a> Iterator for NameIndexHeaderIter<'a> {
    type Item = Result<NameIndexHeader<'a>>;

    #[inline]
    fn next(&mut self) -> Option<Self::Item> {
        NameIndexHeaderIter::next(self).transpose()
    }
}

/// The header of a name index in the section.
#[derive(Debug, Clone)]
pub struct NameIndexHeader<'a> {
    section: Section<'a>,
    place: usize,
    handle: Index,
}

impl<'a> NameIndexHeader<'a> {
    /// Convert the header into a `NameIndex`.
    #[inline]
    pub fn index(self) -> Result<NameIndex<'a>> {
        NameIndex::new(self)
    }

    /// The section offset of this name index.
    #[inline]
    pub fn offset(&self) -> DebugNamesOffset {
        DebugNamesOffset(self.place)
    }

    /// The index length: its length field.
    pub fn length(&self) -> usize {
        self.more().value as usize
    }

    /// The format (DWARF32 or DWARF64).
    #[inline]
    pub fn format(&self) -> Format {
        format(&self.handle)
    }

    /// The version of this name index.
    pub fn version(&self) -> u16 {
        self.more().version as u16
    }

    /// The number of compilation units in this index.
    #[inline]
    pub fn compile_unit_count(&self) -> u32 {
        self.handle.compile_unit_count
    }

    /// The number of local type units in this index.
    #[inline]
    pub fn local_type_unit_count(&self) -> u32 {
        self.handle.local_type_unit_count
    }

    /// The number of foreign type units in this index.
    #[inline]
    pub fn foreign_type_unit_count(&self) -> u32 {
        self.handle.foreign_type_unit_count
    }

    /// The number of buckets in the hash table.
    #[inline]
    pub fn bucket_count(&self) -> u32 {
        self.handle.bucket_count
    }

    /// The number of unique name entries.
    #[inline]
    pub fn name_count(&self) -> u32 {
        self.handle.name_count
    }

    /// The size of the abbreviations table in bytes.
    #[inline]
    pub fn abbrev_table_size(&self) -> u32 {
        self.handle.abbrev_table_size
    }

    /// The augmentation string.
    pub fn augmentation_string(&self) -> Option<&'a [u8]> {
        let more = self.more();
        let bytes = &self.section.bytes[more.augmentation..][..more.augmentation_len];
        (!bytes.is_empty()).then_some(bytes)
    }

    /// What the step over the header does not say. It is read again, and cannot be refused since the step was not.
    fn more(&self) -> ffi::Header {
        calls::header_at(self.section, self.place)
    }
}

/// A reference to a type unit.
#[derive(Debug, Clone, Copy, PartialEq, Eq)]
pub enum NameTypeUnit<T = usize> {
    /// The offset of a local type unit in the `.debug_info` section.
    Local(DebugInfoOffset<T>),
    /// The type signature of a foreign type unit.
    Foreign(DebugTypeSignature),
}

/// Whether lookups by hash list every name of an index; not in gimli.
#[derive(Debug, Clone, Copy, PartialEq, Eq)]
pub enum TableCheck {
    /// There is no hash table.
    NoTable,
    /// A lookup by hash lists every name.
    Complete,
    /// Some names are missed.
    Incomplete(Incomplete),
}

/// What lookups by hash miss; not in gimli.
#[derive(Debug, Clone, Copy, PartialEq, Eq)]
pub struct Incomplete {
    /// How many names are missed: the run of their own bucket does not reach them.
    pub missed: u32,
    /// The smallest of their numbers.
    pub name: NameTableIndex,
    /// The hash that is stored for that name.
    pub hash: u32,
}

/// What lookups by hash miss, with the first name's string; not in gimli.
#[derive(Debug, Clone, Copy, PartialEq, Eq)]
pub struct LostName<'a> {
    /// How many names are missed.
    pub missed: u32,
    /// The smallest of their numbers.
    pub name: NameTableIndex,
    /// The hash that is stored for that name.
    pub hash: u32,
    /// Its string, without its zero byte: the caller's own bytes of `.debug_str`, or why it cannot be read.
    pub string: Result<&'a [u8]>,
}

/// A single name index from the section.
#[derive(Debug, Clone, Copy)]
pub struct NameIndex<'a> {
    section: Section<'a>,
    handle: Index,
}

impl<'a> NameIndex<'a> {
    /// Create a new name index from a header.
    #[inline]
    pub fn new(header: NameIndexHeader<'a>) -> Result<Self> {
        calls::open(header.section, header.handle).check()?;
        Ok(NameIndex { section: header.section, handle: header.handle })
    }

    /// The number of compilation units in this index.
    #[inline]
    pub fn compile_unit_count(&self) -> u32 {
        self.handle.compile_unit_count
    }

    /// The `.debug_info` offset of a compilation unit.
    #[inline]
    pub fn compile_unit(&self, index: u32) -> Result<DebugInfoOffset> {
        let unit = calls::compile_unit(self.section, self.handle, index);
        unit.check()?;
        Ok(DebugInfoOffset(unit.value as usize))
    }

    /// The `.debug_info` offset of the default compilation unit: the only one, if there is only one.
    #[inline]
    pub fn default_compile_unit(&self) -> Result<Option<DebugInfoOffset>> {
        compile_unit(&calls::default_compile_unit(self.section, self.handle))
    }

    /// The number of local type units in this index.
    #[inline]
    pub fn local_type_unit_count(&self) -> u32 {
        self.handle.local_type_unit_count
    }

    /// The `.debug_info` offset of a local type unit.
    #[inline]
    pub fn local_type_unit(&self, index: u32) -> Result<DebugInfoOffset> {
        let unit = calls::local_type_unit(self.section, self.handle, index);
        unit.check()?;
        Ok(DebugInfoOffset(unit.value as usize))
    }

    /// The number of foreign type units in this index.
    #[inline]
    pub fn foreign_type_unit_count(&self) -> u32 {
        self.handle.foreign_type_unit_count
    }

    /// The signature of a foreign type unit.
    #[inline]
    pub fn foreign_type_unit(&self, index: u32) -> Result<DebugTypeSignature> {
        let unit = calls::foreign_type_unit(self.section, self.handle, index);
        unit.check()?;
        Ok(DebugTypeSignature(unit.value))
    }

    /// The number of type units in this index, both local and foreign. Both lists lie in the section: the sum is small.
    #[inline]
    pub fn type_unit_count(&self) -> u32 {
        self.handle.local_type_unit_count + self.handle.foreign_type_unit_count
    }

    /// A type unit: local numbers first, then foreign ones.
    #[inline]
    pub fn type_unit(&self, index: u32) -> Result<NameTypeUnit> {
        let unit = calls::type_unit(self.section, self.handle, index);
        unit.check()?;
        Ok(type_unit_of(unit.kind, unit.value))
    }

    /// Return true if the name index contains a hash table.
    #[inline]
    pub fn has_hash_table(&self) -> bool {
        self.handle.bucket_count != 0
    }

    /// The number of buckets in the hash table.
    #[inline]
    pub fn bucket_count(&self) -> u32 {
        self.handle.bucket_count
    }

    /// Iterate over the names of a bucket, `Ok(None)` if it is empty.
    #[inline]
    pub fn find_by_bucket(&self, bucket_index: u32) -> Result<Option<NameBucketIter<'_>>> {
        let first = calls::find_by_bucket(self.section, self.handle, bucket_index);
        first.check()?;
        let names = NameBucketIter { index: self, bucket: bucket_index, name: name(first.value) };
        Ok(is_there(first.kind).then_some(names))
    }

    /// Iterate over the names that store a hash. The caller must compare their strings.
    #[inline]
    pub fn find_by_hash(&self, hash_value: u32) -> Result<NameHashIter<'_>> {
        let lookup = calls::find_by_hash(self.section, self.handle, hash_value);
        lookup.check()?;
        Ok(NameHashIter::new(self, &lookup.next))
    }

    /// Whether lookups by hash list every name; not in gimli.
    pub fn check_table(&self) -> Result<TableCheck> {
        let check = calls::check_table(self.section, self.handle);
        check.check()?;
        Ok(match check.kind {
            0 => TableCheck::NoTable,
            1 => TableCheck::Complete,
            // No more names are missed than there are, and their number has 32 bits.
            _ => TableCheck::Incomplete(Incomplete { missed: check.value as u32, name: check.name, hash: check.hash }),
        })
    }

    /// What [`NameIndex::check_table`] finds, for a person to start from: the missed name of the smallest number, with its string;
    /// `Ok(None)` if lookups by hash list every name or there is no hash table. Not in gimli.
    ///
    /// A string that cannot be read is an error inside, so that number and hash are told all the same.
    pub fn lost_name<'s>(&self, debug_str: &DebugStr<'s>) -> Result<Option<LostName<'s>>> {
        Ok(match self.check_table()? {
            TableCheck::NoTable | TableCheck::Complete => None,
            TableCheck::Incomplete(Incomplete { missed, name, hash }) => {
                Some(LostName { missed, name, hash, string: self.name_string(name, debug_str) })
            }
        })
    }

    /// The number of names in the name index.
    #[inline]
    pub fn name_count(&self) -> u32 {
        self.handle.name_count
    }

    /// Iterate over the indexes of all names in the name table.
    #[inline]
    pub fn names(&self) -> NameTableIter {
        NameTableIter { next: 0, name_count: self.handle.name_count }
    }

    /// The `.debug_str` offset of a name's string.
    #[inline]
    pub fn name_string_offset(&self, index: NameTableIndex) -> Result<DebugStrOffset> {
        let offset = calls::name_string_offset(self.section, self.handle, index);
        offset.check()?;
        Ok(DebugStrOffset(offset.value as usize))
    }

    /// A name's string, without its zero byte: the caller's own bytes of `.debug_str`.
    #[inline]
    pub fn name_string<'s>(&self, index: NameTableIndex, debug_str: &DebugStr<'s>) -> Result<&'s [u8]> {
        debug_str.part(&calls::name_string(self.section, debug_str.bytes, self.handle, index))
    }

    /// Iterate over the series of entries of a name.
    #[inline]
    pub fn name_entries(&self, index: NameTableIndex) -> Result<NameEntryIter<'_>> {
        let first = calls::name_entries(self.section, self.handle, index);
        first.check()?;
        Ok(NameEntryIter { index: self, at: first.value as usize })
    }

    /// The entry at an offset of the entry pool, as a parent has it.
    #[inline]
    pub fn name_entry(&self, offset: NameEntryOffset) -> Result<NameEntry> {
        let entry = calls::name_entry(self.section, self.handle, offset);
        entry.check()?;
        Ok(NameEntry::new(&entry))
    }
}

/// An iterator over the indexes of all names in a name index.
#[derive(Debug, Clone)]
pub struct NameTableIter {
    next: u32,
    name_count: u32,
}

impl Iterator for NameTableIter {
    type Item = NameTableIndex;

    #[inline]
    fn next(&mut self) -> Option<Self::Item> {
        let name = self.next;
        if name >= self.name_count {
            return None;
        }
        self.next += 1;
        Some(NameTableIndex(name))
    }
}

/// An iterator over the names of a bucket, with their hashes.
///
/// As in gimli, a step after the end of a bucket's run goes on behind the name of another bucket that ended it.
#[derive(Debug, Clone)]
pub struct NameBucketIter<'a> {
    index: &'a NameIndex<'a>,
    bucket: u32,
    name: NameTableIndex,
}

impl NameBucketIter<'_> {
    /// The next name table index and hash.
    #[inline]
    #[allow(clippy::should_implement_trait)]
    pub fn next(&mut self) -> Result<Option<(NameTableIndex, u32)>> {
        let step = calls::next_in_bucket(self.index.section, self.index.handle, self.bucket, self.name);
        step.check()?;
        self.name = step.next;
        Ok(is_there(step.kind).then_some((name(step.value), step.hash)))
    }
}

impl Iterator for NameBucketIter<'_> {
    type Item = Result<(NameTableIndex, u32)>;

    #[inline]
    fn next(&mut self) -> Option<Self::Item> {
        NameBucketIter::next(self).transpose()
    }
}

/// An iterator over the names that store a hash.
#[derive(Debug, Clone)]
pub struct NameHashIter<'a> {
    index: &'a NameIndex<'a>,
    hash: u32,
    /// None where the bucket of the hash is empty.
    bucket: Option<u32>,
    name: NameTableIndex,
}

impl<'a> NameHashIter<'a> {
    #[inline]
    fn new(index: &'a NameIndex<'a>, cursor: &HashCursor) -> Self {
        let bucket = is_there(cursor.has_bucket).then_some(cursor.bucket);
        NameHashIter { index, hash: cursor.hash, bucket, name: cursor.name }
    }

    /// The next name table index.
    #[inline]
    #[allow(clippy::should_implement_trait)]
    pub fn next(&mut self) -> Result<Option<NameTableIndex>> {
        let Some(bucket) = self.bucket else {
            return Ok(None);
        };
        let cursor = HashCursor { hash: self.hash, has_bucket: 1, bucket, name: self.name };
        let step = calls::next_by_hash(self.index.section, self.index.handle, cursor);
        step.check()?;
        // The hash and the bucket stay as they are.
        self.name = step.next.name;
        Ok(is_there(step.kind).then_some(name(step.value)))
    }
}

impl Iterator for NameHashIter<'_> {
    type Item = Result<NameTableIndex>;

    #[inline]
    fn next(&mut self) -> Option<Self::Item> {
        NameHashIter::next(self).transpose()
    }
}

/// An iterator over the series of entries of a name. After the end and after an error it is at its end.
#[derive(Debug, Clone)]
pub struct NameEntryIter<'a> {
    index: &'a NameIndex<'a>,
    at: usize,
}

impl NameEntryIter<'_> {
    /// The next name entry.
    #[inline]
    #[allow(clippy::should_implement_trait)]
    pub fn next(&mut self) -> Result<Option<NameEntry>> {
        let step = calls::next_entry(self.index.section, self.index.handle, self.at);
        self.at = step.next;
        step.check()?;
        Ok(is_there(step.kind).then(|| NameEntry::new(&step)))
    }
}

impl Iterator for NameEntryIter<'_> {
    type Item = Result<NameEntry>;

    #[inline]
    fn next(&mut self) -> Option<Self::Item> {
        NameEntryIter::next(self).transpose()
    }
}

/// An entry of a name index, with its facts.
#[derive(Debug, Clone, PartialEq, Eq)]
pub struct NameEntry {
    /// The offset of the entry in the entries pool.
    pub offset: NameEntryOffset,
    /// The abbreviation code for this entry.
    pub abbrev_code: u64,
    /// The DIE tag for this entry.
    pub tag: DwTag,
    facts: Facts,
}

impl NameEntry {
    #[inline]
    fn new(entry: &ffi::Entry) -> NameEntry {
        NameEntry {
            offset: NameEntryOffset(entry.value as usize),
            abbrev_code: entry.abbrev_code,
            tag: DwTag(entry.tag as u16),
            facts: entry.facts,
        }
    }

    /// The unit of the `DW_IDX_compile_unit` attribute, if any.
    ///
    /// It was looked up in the index that gave the entry: the argument is there since gimli has it.
    #[inline]
    pub fn compile_unit(&self, _names: &NameIndex) -> Result<Option<DebugInfoOffset>> {
        compile_unit(&self.facts.compile_unit)
    }

    /// The unit of the `DW_IDX_type_unit` attribute, if any; the argument is as for [`NameEntry::compile_unit`].
    #[inline]
    pub fn type_unit(&self, _names: &NameIndex) -> Result<Option<NameTypeUnit>> {
        let unit = &self.facts.type_unit;
        unit.check()?;
        Ok(is_there(unit.kind).then(|| type_unit_of(unit.kind, unit.value)))
    }

    /// The value of the `DW_IDX_die_offset` attribute, if any: the offset of the DIE within its unit.
    #[inline]
    pub fn die_offset(&self) -> Result<Option<UnitOffset>> {
        let offset = &self.facts.die_offset;
        offset.check()?;
        Ok(is_there(offset.kind).then_some(UnitOffset(offset.value as usize)))
    }

    /// The value of the `DW_IDX_parent` attribute, if any.
    ///
    /// `Ok(Some(Some(offset)))` if the DIE parent is indexed, `Ok(Some(None))` if it is not, and `Ok(None)` if that is not known.
    #[inline]
    pub fn parent(&self) -> Result<Option<Option<NameEntryOffset>>> {
        let parent = &self.facts.parent;
        parent.check()?;
        Ok(match parent.kind {
            0 => None,
            1 => Some(Some(NameEntryOffset(parent.value as usize))),
            _ => Some(None),
        })
    }

    /// The value of the `DW_IDX_type_hash` attribute, if any.
    #[inline]
    pub fn type_hash(&self) -> Result<Option<u64>> {
        let hash = &self.facts.type_hash;
        hash.check()?;
        Ok(is_there(hash.kind).then_some(hash.value))
    }
}

/// Kind 0 is none or an end.
#[inline]
fn is_there(kind: u32) -> bool {
    kind != 0
}

/// The name of an answer's value.
#[inline]
fn name(value: u64) -> NameTableIndex {
    NameTableIndex(value as u32)
}

#[inline]
fn format(handle: &Index) -> Format {
    if handle.format == 8 { Format::Dwarf64 } else { Format::Dwarf32 }
}

/// A compile unit, or none.
#[inline]
fn compile_unit(unit: &Answer) -> Result<Option<DebugInfoOffset>> {
    unit.check()?;
    Ok(is_there(unit.kind).then_some(DebugInfoOffset(unit.value as usize)))
}

/// A type unit: kind 2 is a local one, 3 a foreign one.
#[inline]
fn type_unit_of(kind: u32, value: u64) -> NameTypeUnit {
    if kind == 2 { NameTypeUnit::Local(DebugInfoOffset(value as usize)) } else { NameTypeUnit::Foreign(DebugTypeSignature(value)) }
}
