//! Case A (SPECIFICATION 16), lost names (11) and entries with two units (12.6). The expected values are worked out by hand from what the
//! specification says.

use crate::calls::{self, Outcome, Section};
use crate::ffi;
use crate::*;

const STRINGS: &[u8] = b"\0abc\0de\0";

/// Case A: its numbers of 4 bytes, in a byte order, and the bytes behind them.
struct CaseA {
    order: RunTimeEndian,
    length: u32,
    version: u16,
    buckets: Vec<u32>,
    hashes: Vec<u32>,
}

impl CaseA {
    fn new(order: RunTimeEndian) -> CaseA {
        CaseA { order, length: 105, version: 5, buckets: vec![1, 2], hashes: vec![4, 7, 9] }
    }

    fn bytes(&self) -> Vec<u8> {
        let big = self.order.is_big_endian();
        let u32 = |number: u32| if big { number.to_be_bytes() } else { number.to_le_bytes() };
        let u16 = if big { self.version.to_be_bytes() } else { self.version.to_le_bytes() };
        let die = |offset: u32| [&[1], &u32(offset)[..], &[0]].concat();
        let mut bytes = [&u32(self.length)[..], &u16, &[0, 0]].concat();
        bytes.extend([1, 0, 0, self.buckets.len() as u32, 3, 7, 0].into_iter().flat_map(u32));
        bytes.extend([0].into_iter().chain(self.buckets.clone()).chain(self.hashes.clone()).flat_map(u32));
        bytes.extend([1, 5, 6, 0, 6, 12].into_iter().flat_map(u32));
        bytes.extend([1, 0x2e, 3, 0x13, 0, 0, 0]);
        bytes.extend([0x10, 0x20, 0x30].into_iter().flat_map(die));
        bytes
    }
}

fn little() -> Vec<u8> {
    CaseA::new(RunTimeEndian::Little).bytes()
}

/// The names of case A with other starts of the buckets.
fn with_starts(first: u32, second: u32) -> Vec<u8> {
    CaseA { buckets: vec![first, second], ..CaseA::new(RunTimeEndian::Little) }.bytes()
}

fn strings() -> DebugStr<'static> {
    DebugStr::new(STRINGS, LittleEndian)
}

/// The first index of a little-endian section.
fn index(bytes: &[u8]) -> NameIndex<'_> {
    let header = DebugNames::new(bytes, LittleEndian).headers().next().unwrap().unwrap();
    header.index().unwrap()
}

fn eof<T>(place: u64) -> Result<T> {
    Err(Error::UnexpectedEof(ReaderOffsetId(place)))
}

/// An incomplete table: how many names are missed, and the first of them with its hash.
fn incomplete(missed: u32, name: u32, hash: u32) -> Result<TableCheck> {
    Ok(TableCheck::Incomplete(Incomplete { missed, name: NameTableIndex(name), hash }))
}

fn names_of_hash(index: &NameIndex, hash: u32) -> Vec<u32> {
    index.find_by_hash(hash).unwrap().map(|name| name.unwrap().0).collect()
}

fn names_of_bucket(index: &NameIndex, bucket: u32) -> Vec<(u32, u32)> {
    let names = index.find_by_bucket(bucket).unwrap().into_iter().flatten();
    names.map(Result::unwrap).map(|(name, hash)| (name.0, hash)).collect()
}

#[test]
fn case_a_has_109_bytes() {
    assert_eq!(little().len(), 109);
}

#[test]
fn header() {
    let bytes = little();
    let mut headers = DebugNames::new(&bytes, LittleEndian).headers();
    let header = headers.next().unwrap().unwrap();
    assert_eq!(header.offset(), DebugNamesOffset(0));
    assert_eq!((header.length(), header.format(), header.version()), (105, Format::Dwarf32, 5));
    let units = (header.compile_unit_count(), header.local_type_unit_count(), header.foreign_type_unit_count());
    assert_eq!(units, (1, 0, 0));
    assert_eq!((header.bucket_count(), header.name_count(), header.abbrev_table_size()), (2, 3, 7));
    assert_eq!(header.augmentation_string(), None);
    assert!(headers.next().unwrap().is_none());
}

#[test]
fn augmentation() {
    let mut bytes = little();
    bytes[0] += 4;
    bytes[32] = 3;
    bytes.splice(36..36, *b"GDB\0");
    let header = DebugNames::new(&bytes, LittleEndian).headers().next().unwrap().unwrap();
    assert_eq!(header.augmentation_string(), Some(&b"GDB"[..]));
    assert_eq!(names_of_hash(&header.index().unwrap(), 9), [2]);
}

#[test]
fn counts() {
    let bytes = little();
    let index = index(&bytes);
    assert_eq!((index.compile_unit_count(), index.local_type_unit_count(), index.foreign_type_unit_count()), (1, 0, 0));
    assert_eq!((index.type_unit_count(), index.bucket_count(), index.name_count()), (0, 2, 3));
    assert!(index.has_hash_table());
    let names: Vec<u32> = index.names().map(|name| name.0).collect();
    assert_eq!(names, [0, 1, 2]);
}

/// The calls that this crate does not use give the counts that it reads from the handle.
#[test]
fn counts_of_the_library() {
    let bytes = little();
    let section = Section { bytes: &bytes, order: 0 };
    let handle = calls::next_header(section, 0).index;
    let count = |call: unsafe extern "C" fn(*const u8, usize, ffi::Index) -> ffi::Answer| {
        let answer = unsafe { call(bytes.as_ptr(), bytes.len(), handle) };
        assert_eq!(answer.check(), Ok(()));
        answer.value
    };
    assert_eq!(count(ffi::debug_names_compile_unit_count), 1);
    assert_eq!(count(ffi::debug_names_local_type_unit_count), 0);
    assert_eq!(count(ffi::debug_names_foreign_type_unit_count), 0);
    assert_eq!(count(ffi::debug_names_type_unit_count), 0);
    assert_eq!(count(ffi::debug_names_bucket_count), 2);
    assert_eq!(count(ffi::debug_names_name_count), 3);
    assert_eq!(count(ffi::debug_names_has_hash_table), 1);
}

#[test]
fn units() {
    let bytes = little();
    let index = index(&bytes);
    assert_eq!(index.compile_unit(0), Ok(DebugInfoOffset(0)));
    assert_eq!(index.compile_unit(1), eof(40));
    assert_eq!(index.compile_unit(2), eof(36));
    assert_eq!(index.local_type_unit(0), eof(40));
    assert_eq!(index.foreign_type_unit(0), eof(40));
    assert_eq!(index.type_unit(0), eof(40));
    assert_eq!(index.default_compile_unit(), Ok(Some(DebugInfoOffset(0))));
}

#[test]
fn strings_of_names() {
    let bytes = little();
    let index = index(&bytes);
    for (number, offset, string) in [(0, 1, "abc"), (1, 5, "de"), (2, 6, "e")] {
        let name = NameTableIndex(number);
        assert_eq!(index.name_string_offset(name), Ok(DebugStrOffset(offset)));
        assert_eq!(index.name_string(name, &strings()), Ok(string.as_bytes()));
        assert_eq!(strings().get_str(DebugStrOffset(offset)), Ok(string.as_bytes()));
    }
    assert_eq!(index.name_string_offset(NameTableIndex(3)), eof(72));
    assert_eq!(index.name_string_offset(NameTableIndex(4)), eof(60));
    let cut = DebugStr::new(&STRINGS[..7], LittleEndian);
    assert_eq!(index.name_string(NameTableIndex(1), &cut), eof(5));
    assert_eq!(cut.get_str(DebugStrOffset(8)), eof(0));
}

#[test]
fn names_of_hashes() {
    let bytes = little();
    let index = index(&bytes);
    assert_eq!(names_of_hash(&index, 4), [0]);
    assert_eq!(names_of_hash(&index, 7), [1]);
    assert_eq!(names_of_hash(&index, 9), [2]);
    assert_eq!(names_of_hash(&index, 6), []);
}

#[test]
fn names_of_buckets() {
    let bytes = little();
    let index = index(&bytes);
    assert_eq!(names_of_bucket(&index, 0), [(0, 4)]);
    assert_eq!(names_of_bucket(&index, 1), [(1, 7), (2, 9)]);
    assert!(matches!(index.find_by_bucket(2), Err(Error::UnexpectedEof(ReaderOffsetId(48)))));
    let empty = with_starts(0, 2);
    assert_eq!(names_of_bucket(&self::index(&empty), 0), []);
}

#[test]
fn table() {
    let check = |second| index(&with_starts(1, second)).check_table();
    assert_eq!(check(2), Ok(TableCheck::Complete));
    assert_eq!(check(3), incomplete(1, 1, 7));
    assert_eq!(check(4), incomplete(2, 1, 7));
    assert_eq!(check(5), eof(48));
}

/// Name 0, of bucket 1, and name 1, of bucket 0, are missed: the first by its number is not that of the lowest bucket.
#[test]
fn smallest_number_is_not_in_the_lowest_bucket() {
    let case = CaseA { buckets: vec![0, 3], hashes: vec![7, 4, 9], ..CaseA::new(RunTimeEndian::Little) };
    let bytes = case.bytes();
    let index = index(&bytes);
    assert_eq!(names_of_bucket(&index, 0), []);
    assert_eq!(names_of_bucket(&index, 1), [(2, 9)]);
    assert_eq!(index.check_table(), incomplete(2, 0, 7));
    assert_eq!(index.lost_name(&strings()), Ok(Some(LostName { missed: 2, name: NameTableIndex(0), hash: 7, string: Ok(b"abc") })));
}

/// The hash is the stored one with all its 32 bits, not the number of its bucket.
#[test]
fn hash_of_a_lost_name() {
    for order in [RunTimeEndian::Little, RunTimeEndian::Big] {
        let bytes = CaseA { buckets: vec![1, 3], hashes: vec![4, 0x8765_4321, 9], ..CaseA::new(order) }.bytes();
        let header = DebugNames::new(&bytes, order).headers().next().unwrap().unwrap();
        assert_eq!(header.index().unwrap().check_table(), incomplete(1, 1, 0x8765_4321));
    }
}

#[test]
fn lost_names() {
    let lost = |second, strings: DebugStr<'static>| index(&with_starts(1, second)).lost_name(&strings);
    let name_1 = |missed, string| Ok(Some(LostName { missed, name: NameTableIndex(1), hash: 7, string }));
    assert_eq!(lost(2, strings()), Ok(None));
    assert_eq!(lost(3, strings()), name_1(1, Ok(b"de")));
    assert_eq!(lost(4, strings()), name_1(2, Ok(b"de")));
    assert_eq!(lost(5, strings()), eof(48));
    // Its string has no zero byte: number and hash are told all the same.
    assert_eq!(lost(3, DebugStr::new(&STRINGS[..7], LittleEndian)), name_1(1, eof(5)));
}

#[test]
fn no_table() {
    let case = CaseA { length: 85, buckets: vec![], hashes: vec![], ..CaseA::new(RunTimeEndian::Little) };
    let bytes = case.bytes();
    let index = index(&bytes);
    assert!(!index.has_hash_table());
    assert_eq!(index.check_table(), Ok(TableCheck::NoTable));
    assert_eq!(index.lost_name(&strings()), Ok(None));
    assert!(matches!(index.find_by_hash(4), Err(Error::UnexpectedEof(ReaderOffsetId(40)))));
}

#[test]
fn entries() {
    let bytes = little();
    let index = index(&bytes);
    for number in 0..3 {
        let mut entries = index.name_entries(NameTableIndex(number)).unwrap();
        let entry = entries.next().unwrap().unwrap();
        assert!(entries.next().unwrap().is_none());
        assert_eq!(entry.offset, NameEntryOffset(6 * number as usize));
        assert_eq!((entry.abbrev_code, entry.tag), (1, DwTag(0x2e)));
        assert_eq!(entry.die_offset(), Ok(Some(UnitOffset(0x10 * (number as usize + 1)))));
        assert_eq!(entry.compile_unit(&index), Ok(None));
        assert_eq!(entry.type_unit(&index), Ok(None));
        assert_eq!(entry.parent(), Ok(None));
        assert_eq!(entry.type_hash(), Ok(None));
        assert_eq!(index.name_entry(entry.offset), Ok(entry));
    }
}

#[test]
fn refused_entries() {
    let bytes = little();
    let index = index(&bytes);
    assert_eq!(index.name_entry(NameEntryOffset(5)), Err(Error::NoEntryAtGivenOffset(5)));
    assert_eq!(index.name_entry(NameEntryOffset(18)), eof(109));
    assert_eq!(index.name_entry(NameEntryOffset(19)), eof(91));
    assert_eq!(index.name_entries(NameTableIndex(3)).map(|_| ()), eof(84));
    assert_eq!(index.name_entries(NameTableIndex(4)).map(|_| ()), eof(72));
}

/// A parent in form flag (0x0c), true and false; an entry whose code is not declared ends the series.
#[test]
fn facts() {
    let mut bytes = little();
    bytes[86..88].copy_from_slice(&[4, 0x0c]);
    bytes[91..98].copy_from_slice(&[1, 1, 1, 0, 2, 1, 0]);
    let index = index(&bytes);
    let mut entries = index.name_entries(NameTableIndex(0)).unwrap();
    let first = entries.next().unwrap().unwrap();
    assert_eq!((first.parent(), first.die_offset()), (Ok(Some(None)), Ok(None)));
    let second = entries.next().unwrap().unwrap();
    assert_eq!(second.parent(), Err(Error::UnsupportedAttributeForm(DwForm(0x0c))));
    assert_eq!(entries.next(), Err(Error::InvalidAbbreviationCode(2)));
    assert_eq!(entries.next(), Ok(None));
}

#[test]
fn refused_headers() {
    let first = |case: CaseA| {
        let bytes = case.bytes();
        let mut headers = DebugNames::new(&bytes, LittleEndian).headers();
        let error = headers.next().unwrap_err();
        assert!(headers.next().unwrap().is_none());
        error
    };
    let case = || CaseA::new(RunTimeEndian::Little);
    let past_the_end = first(CaseA { length: 0xffffffef, ..case() });
    assert_eq!(past_the_end, Error::UnexpectedEof(ReaderOffsetId(4)));
    let reserved = first(CaseA { length: 0xfffffff0, ..case() });
    assert_eq!(reserved, Error::UnknownReservedLength(0xfffffff0));
    assert_eq!(first(CaseA { version: 4, ..case() }), Error::UnknownVersion(4));
}

#[test]
fn a_table_that_does_not_open() {
    let mut bytes = little();
    bytes[85] = 0;
    let header = DebugNames::new(&bytes, LittleEndian).headers().next().unwrap().unwrap();
    assert_eq!(header.index().map(|_| ()), Err(Error::AbbreviationTagZero));
}

#[test]
fn query() {
    let (entry_offset, name, die_offset) = (NameEntryOffset(6), NameTableIndex(1), UnitOffset(0x20));
    let expected = Record { entry_offset, name, tag: 0x2e, unit_kind: 1, has_die_offset: 1, die_offset, ..Record::default() };
    let untouched = Record { unit_value: 77, ..Record::default() };
    for order in [RunTimeEndian::Little, RunTimeEndian::Big] {
        let bytes = CaseA::new(order).bytes();
        let names = DebugNames::new(&bytes, order);
        let mut records = [untouched; 2];
        assert_eq!(names.query(&strings(), 7, b"de", &mut records), Ok(1));
        assert_eq!(records, [expected, untouched]);
        assert_eq!(names.query(&strings(), 7, b"de", &mut []), Ok(1));
        assert_eq!(names.query(&strings(), 7, b"d", &mut records), Ok(0));
        assert_eq!(names.query(&strings(), 6, b"de", &mut records), Ok(0));
    }
    assert_eq!((expected.index(), expected.entry(), expected.name()), (DebugNamesOffset(0), NameEntryOffset(6), NameTableIndex(1)));
    assert_eq!(expected.unit(), Some(RecordUnit::Compile(DebugInfoOffset(0))));
    assert_eq!((expected.tag(), expected.die_offset()), (DwTag(0x2e), Some(UnitOffset(0x20))));
}

/// A query that is refused writes nothing: the string of the second index's name is not there.
#[test]
fn refused_query() {
    let mut bytes = [little(), little()].concat();
    bytes[109 + 64] = 9;
    let untouched = Record { unit_value: 77, ..Record::default() };
    let mut records = [untouched; 2];
    let answer = DebugNames::new(&bytes, LittleEndian).query(&strings(), 7, b"de", &mut records);
    assert_eq!(answer, eof(0));
    assert_eq!(records, [untouched; 2]);
}

/// A type that two units of a split build have, under one signature: both attributes of units stand in its two entries. The records show the
/// type unit, and the entries tell which compilation unit leads to the split file.
#[test]
fn both_units() {
    let numbers: [u32; 8] = [5, 2, 0, 1, 0, 1, 11, 0];
    let mut bytes = 76u32.to_le_bytes().to_vec();
    bytes.extend(numbers.into_iter().flat_map(u32::to_le_bytes));
    bytes.extend([0x40u32, 0x80].into_iter().flat_map(u32::to_le_bytes));
    bytes.extend(0x0102_0304_0506_0708u64.to_le_bytes());
    bytes.extend([5u32, 0].into_iter().flat_map(u32::to_le_bytes));
    bytes.extend([1, 0x13, 2, 0x0b, 1, 0x0b, 3, 0x11, 0, 0, 0]);
    bytes.extend([1, 0, 0, 5, 1, 0, 1, 5, 0]);
    let mut records = [Record::default(); 3];
    assert_eq!(DebugNames::new(&bytes, LittleEndian).query(&strings(), 0, b"de", &mut records), Ok(2));
    let index = index(&bytes);
    for (record, unit) in records.iter().zip([0x40, 0x80]) {
        assert_eq!(record.unit(), Some(RecordUnit::ForeignType(DebugTypeSignature(0x0102_0304_0506_0708))));
        assert_eq!((record.tag(), record.die_offset()), (DwTag(0x13), Some(UnitOffset(5))));
        assert_eq!(index.name_entry(record.entry()).unwrap().compile_unit(&index), Ok(Some(DebugInfoOffset(unit))));
    }
    assert_eq!(records[2], Record::default());
}

#[test]
fn big_endian() {
    let bytes = CaseA::new(RunTimeEndian::Big).bytes();
    let header = DebugNames::new(&bytes, BigEndian).headers().next().unwrap().unwrap();
    assert_eq!((header.length(), header.name_count()), (105, 3));
    assert_eq!(names_of_hash(&header.index().unwrap(), 9), [2]);
}

#[test]
fn empty_section() {
    assert!(DebugNames::new(&[], LittleEndian).headers().next().unwrap().is_none());
    assert_eq!(DebugNames::new(&[], LittleEndian).query(&strings(), 7, b"de", &mut []), Ok(0));
}

/// One byte too many. None of them is read.
#[test]
fn too_long() {
    let bytes = vec![0; 2_147_483_648];
    let mut headers = DebugNames::new(&bytes, LittleEndian).headers();
    assert_eq!(headers.next().unwrap_err(), Error::SectionTooLong);
    assert!(headers.next().unwrap().is_none());
    assert_eq!(DebugStr::new(&bytes, LittleEndian).get_str(DebugStrOffset(0)), Err(Error::SectionTooLong));
}

#[test]
fn does_not_fit() {
    let bytes = little();
    let section = Section { bytes: &bytes, order: 0 };
    let handle = calls::next_header(section, 0).index;
    let cut = Section { bytes: &bytes[..100], order: 0 };
    assert_eq!(calls::open(cut, handle).check(), Err(Error::DoesNotFit));
    assert_eq!(calls::check_table(cut, handle), ffi::Table { status: 14, ..ffi::Table::default() });
    let no_format = ffi::Index { format: 5, ..handle };
    assert_eq!(calls::open(section, no_format).check(), Err(Error::DoesNotFit));
}

/// 14 leaves the cursor as it was, number by number, also where the library would write it otherwise.
#[test]
fn a_refused_hash_step_hands_back_the_cursor() {
    let bytes = little();
    let section = Section { bytes: &bytes, order: 0 };
    let index = calls::next_header(section, 0).index;
    let no_format = ffi::Index { format: 5, ..index };
    for has_bucket in [0, 1, 7] {
        let cursor = ffi::HashCursor { hash: 1, has_bucket, bucket: 3, name: NameTableIndex(9) };
        let step = calls::next_by_hash(section, no_format, cursor);
        assert_eq!(step, ffi::HashStep { status: 14, next: cursor, ..ffi::HashStep::default() });
    }
    // An index that fits has no bucket 3.
    let cursor = ffi::HashCursor { hash: 1, has_bucket: 7, bucket: 3, name: NameTableIndex(9) };
    assert_eq!(calls::next_by_hash(section, index, cursor), ffi::HashStep { status: 14, next: cursor, ..ffi::HashStep::default() });
}

/// Every number gives an error of that number, with its value where it carries one.
#[test]
fn numbers_of_errors() {
    for number in 1..=14 {
        let error = Error::new(number, 3);
        let carries = !matches!(number, 4..=7 | 13 | 14);
        assert_eq!((error.number() as u32, error.value()), (number, if carries { 3 } else { 0 }));
        assert!(format!("{error:?}").starts_with(error.name()));
        assert!(!error.to_string().is_empty());
    }
}
