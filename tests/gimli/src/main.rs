//! An oracle for the basic readers of gimli 0.34.0.
//!
//! What it does. It makes test cases (with a small random number generator of
//! its own and a fixed seed, so that each run makes the same ones), writes them
//! to `cases.bin`, reads `cases.bin` back from memory, has gimli's own code
//! answer each case, and writes the answers to `answers.txt`, a line for each.
//! LEB128 numbers are read after section 7.6 of DWARF 5 by the file that
//! tools/oracle has for it. It holds each to gimli's own reading, but where the
//! tenth byte (the third for 16 bits) has the continuation bit: gimli refuses
//! these.
//!
//! How to build and run it: `cargo run --release -j1 -- OUTPUT_DIRECTORY`.
//! It needs no other crate. The features `read`, `read-core` and `std` are
//! gimli's own names for what is compiled; Cargo.toml turns them on.
//!
//! Which files of gimli it compiles, unmodified: leb128.rs, endianity.rs,
//! common.rs, read/reader.rs, read/endian_slice.rs, read/str.rs. They are
//! byte-identical copies in the directory `gimli` beside `src`, with their
//! SHA-256 sums in gimli/SHA256SUMS. What these files need of read/mod.rs
//! (Error, Result, Section) is stubbed in `mod read`, cut down from gimli's
//! read/mod.rs (gimli's licence: MIT OR Apache-2.0). The #[rustfmt::skip]
//! attributes keep `cargo fmt` from rewriting gimli's files.
//!
//! A case in cases.bin, all numbers little-endian: op u8, order u8 (0 little,
//! 1 big), at u16, end u16, arg u16, len u16, then the `len` bytes of the
//! section. What is read is the part at..end of the section.
//!
//! An answer: `N NAME ok ...` or `N NAME refused NUMBER VALUE`, decimal, with
//! offsets counted from the start of the section. NUMBER and VALUE: 1 and the
//! place where the bytes ran out, 2 and the reserved length, 7 and 0 for an
//! unsigned LEB128 that is too large.

extern crate alloc;

use std::path::Path;

// ---------------------------------------------------------------------------
// gimli's files, unmodified.

#[allow(dead_code)]
#[path = "../gimli/common.rs"]
#[rustfmt::skip]
mod common;
#[allow(dead_code)]
#[path = "../gimli/endianity.rs"]
#[rustfmt::skip]
mod endianity;
#[allow(dead_code)]
#[path = "../gimli/leb128.rs"]
#[rustfmt::skip]
mod leb128;

// gimli's lib.rs has all of common at the crate's root; str.rs needs this one.
pub use common::Format;

/// In the place of gimli's read/mod.rs.
#[allow(dead_code)]
#[path = "../gimli/read"]
mod read {
    use crate::common::SectionId;

    #[rustfmt::skip]
    mod endian_slice;
    pub use self::endian_slice::*;

    #[rustfmt::skip]
    mod reader;
    pub use self::reader::*;

    #[rustfmt::skip]
    mod str;
    pub use self::str::*;

    /// Stub: of gimli's `Error`, the variants that the files above name.
    #[derive(Debug, Clone, Copy, PartialEq, Eq)]
    pub enum Error {
        BadUnsignedLeb128,
        BadSignedLeb128,
        UnknownReservedLength(u32),
        UnexpectedEof(ReaderOffsetId),
        UnsupportedAddressSize(u8),
        UnsupportedOffsetSize(u8),
        BadUtf8,
        AddressOverflow,
        UnsupportedOffset,
    }

    /// As in gimli.
    pub type Result<T> = core::result::Result<T, Error>;

    /// Stub: of gimli's `Section`, the two methods that have no default.
    pub trait Section<R>: From<R> {
        fn id() -> SectionId;

        fn reader(&self) -> &R
        where
            R: Reader;
    }
}

#[path = "../../../tools/oracle/src/leb128_7_6.rs"]
mod leb128_7_6;

use common::DebugStrOffset;
use endianity::RunTimeEndian;
use read::{DebugStr, EndianSlice, Error, Reader};

// ---------------------------------------------------------------------------
// Cases and their bytes.

const U8: u8 = 1;
const U16: u8 = 2;
const U32: u8 = 3;
const U64: u8 = 4;
const WORD32: u8 = 5;
const WORD64: u8 = 6;
const LENGTH: u8 = 7;
const ULEB128: u8 = 8;
const ULEB128_U16: u8 = 9;
const SKIP: u8 = 10;
const SPLIT: u8 = 11;
const STR: u8 = 12;

const MOST_BYTES: usize = 60_000;
const HEAD: usize = 10;

fn name(op: u8) -> &'static str {
    match op {
        U8 => "u8",
        U16 => "u16",
        U32 => "u32",
        U64 => "u64",
        WORD32 => "word32",
        WORD64 => "word64",
        LENGTH => "length",
        ULEB128 => "uleb128",
        ULEB128_U16 => "uleb128_u16",
        SKIP => "skip",
        SPLIT => "split",
        STR => "str",
        _ => panic!("no such op: {op}"),
    }
}

struct Case<'a> {
    op: u8,
    order: u8,
    at: u16,
    end: u16,
    arg: u16,
    section: &'a [u8],
}

impl<'a> Case<'a> {
    fn write(&self, out: &mut Vec<u8>) {
        assert!(self.at <= self.end && usize::from(self.end) <= self.section.len());
        assert!(self.order < 2);
        out.extend([self.op, self.order]);
        for number in [self.at, self.end, self.arg] {
            out.extend(number.to_le_bytes());
        }
        out.extend(u16::try_from(self.section.len()).unwrap().to_le_bytes());
        out.extend(self.section);
    }

    /// The case at the start of `bytes`, and the bytes after it.
    fn parse(bytes: &'a [u8]) -> (Case<'a>, &'a [u8]) {
        let number = |i: usize| u16::from_le_bytes([bytes[i], bytes[i + 1]]);
        let (section, rest) = bytes[HEAD..].split_at(usize::from(number(8)));
        let case = Case {
            op: bytes[0],
            order: bytes[1],
            at: number(2),
            end: number(4),
            arg: number(6),
            section,
        };
        (case, rest)
    }
}

// ---------------------------------------------------------------------------
// gimli's answer to a case.

struct Answer {
    /// The line without the case's number in front.
    text: String,
    refused: bool,
    /// Whether the reader stood elsewhere after it than before it.
    moved: bool,
}

fn answer(case: &Case) -> Answer {
    let order = match case.order {
        0 => RunTimeEndian::Little,
        1 => RunTimeEndian::Big,
        _ => panic!("no such order"),
    };
    let (at, end) = (usize::from(case.at), usize::from(case.end));
    let arg = usize::from(case.arg);
    let section = EndianSlice::new(case.section, order);
    let mut part = section.range(at..end);

    let result: Result<Vec<u64>, Error> = match case.op {
        U8 => part.read_u8().map(|v| vec![v.into()]),
        U16 => part.read_u16().map(|v| vec![v.into()]),
        U32 => part.read_u32().map(|v| vec![v.into()]),
        U64 => part.read_u64().map(|v| vec![v]),
        WORD32 => part.read_word(Format::Dwarf32).map(|v| vec![v as u64]),
        WORD64 => part.read_word(Format::Dwarf64).map(|v| vec![v as u64]),
        LENGTH => part
            .read_initial_length()
            .map(|(v, format)| vec![v as u64, format.word_size().into()]),
        ULEB128 => leb128_7_6::unsigned(&mut part).map(|v| vec![v]),
        ULEB128_U16 => leb128_7_6::u16(&mut part).map(|v| vec![v.into()]),
        SKIP => part.skip(arg).map(|()| vec![]),
        SPLIT => part.split(arg).map(|taken| {
            let start = taken.offset_from(section);
            assert_eq!(start, at);
            assert_eq!(start + taken.len(), part.offset_from(section));
            vec![start as u64]
        }),
        STR => {
            assert_eq!((at, end), (0, case.section.len()));
            DebugStr::from(section)
                .get_str(DebugStrOffset(arg))
                .map(|v| vec![v.offset_from(section) as u64, v.len() as u64])
        }
        _ => panic!("no such op"),
    };

    // Where the part that is left begins; its end never changes.
    let next = part.offset_from(section);
    assert_eq!(next + part.len(), end);
    let moved = next != at;
    let refused = result.is_err();

    let mut text = name(case.op).to_string();
    match result {
        Ok(mut values) => {
            // For split this is the END, which was compared above.
            if case.op != STR {
                values.push(next as u64);
            }
            text += " ok";
            for value in values {
                text += &format!(" {value}");
            }
        }
        Err(error) => {
            let (number, value) = match error {
                Error::UnexpectedEof(id) => {
                    let place = id.0 - case.section.as_ptr() as u64;
                    assert_eq!(section.lookup_offset_id(id), Some(place as usize));
                    (1, place)
                }
                Error::UnknownReservedLength(v) => (2, u64::from(v)),
                Error::BadUnsignedLeb128 => (7, 0),
                other => panic!("unforeseen error: {other:?}"),
            };
            text += &format!(" refused {number} {value}");
            if matches!(case.op, U8..=WORD64 | SKIP | SPLIT) {
                assert!(!moved, "a refusal moved the reader: {text}");
            }
        }
    }
    Answer {
        text,
        refused,
        moved,
    }
}

// ---------------------------------------------------------------------------
// Making the cases.

struct Random(u64);

impl Random {
    fn next(&mut self) -> u64 {
        self.0 ^= self.0 << 13;
        self.0 ^= self.0 >> 7;
        self.0 ^= self.0 << 17;
        self.0
    }

    fn byte(&mut self) -> u8 {
        (self.next() >> 32) as u8
    }

    fn bytes(&mut self, count: usize) -> Vec<u8> {
        (0..count).map(|_| self.byte()).collect()
    }

    /// Bytes that all differ, none of them zero.
    fn distinct(&mut self, count: usize) -> Vec<u8> {
        let mut out = Vec::new();
        while out.len() < count {
            let byte = self.byte();
            if byte != 0 && !out.contains(&byte) {
                out.push(byte);
            }
        }
        out
    }
}

/// The most bytes of a padded number.
const LONG: usize = 200;

/// Whether a number has no more bits than that many LEB128 bytes.
fn fits(value: u64, count: usize) -> bool {
    (u64::BITS - value.leading_zeros()) as usize <= 7 * count
}

/// The first bytes of a number that goes on behind them.
fn continuing(value: u64, count: usize) -> Vec<u8> {
    (0..count as u32)
        .map(|i| value.checked_shr(7 * i).unwrap_or(0) as u8 | 0x80)
        .collect()
}

/// A number in that many bytes.
fn padded_number(value: u64, count: usize) -> Vec<u8> {
    let mut bytes = continuing(value, count);
    bytes[count - 1] &= 0x7f;
    bytes
}

struct Maker {
    random: Random,
    out: Vec<u8>,
    count: usize,
}

impl Maker {
    fn add(&mut self, op: u8, order: u8, at: usize, end: usize, arg: usize, section: &[u8]) {
        let case = Case {
            op,
            order,
            at: at.try_into().unwrap(),
            end: end.try_into().unwrap(),
            arg: arg.try_into().unwrap(),
            section,
        };
        case.write(&mut self.out);
        self.count += 1;
    }

    /// The order for a case where it should make no difference: now this, now that.
    fn any_order(&self) -> u8 {
        (self.count % 2) as u8
    }

    /// Numbers of fixed size.
    fn fixed(&mut self) {
        for op in U8..=WORD64 {
            for len in 0..=9usize {
                for at in 0..=3usize {
                    for short in 0..=2usize {
                        if at + short > len {
                            continue;
                        }
                        for order in 0..2 {
                            let section = self.random.distinct(len);
                            self.add(op, order, at, len - short, 0, &section);
                        }
                    }
                }
            }
            // Eight bytes in the midst of a section: most of the above is too short for it.
            if matches!(op, U64 | WORD64) {
                for at in 1..=3usize {
                    for beyond in 0..=2usize {
                        for order in 0..2 {
                            let section = self.random.distinct(at + 8 + beyond);
                            self.add(op, order, at, at + 8, 0, &section);
                        }
                    }
                }
            }
            for section in [[0xff; 8], [0x80, 0, 0, 0, 0, 0, 0, 0]] {
                for order in 0..2 {
                    self.add(op, order, 0, 8, 0, &section);
                }
            }
        }
    }

    fn initial_length(&mut self) {
        let words: [u32; 8] = [
            0,
            1,
            0x69,
            0xffff_ffef,
            0xffff_fff0,
            0xffff_fff1,
            0xffff_fffe,
            0xffff_ffff,
        ];
        for order in 0..2 {
            let put = |word: u32| match order {
                0 => word.to_le_bytes(),
                _ => word.to_be_bytes(),
            };
            for at in [0, 3] {
                for word in words {
                    for after in 0..=8 {
                        let mut section = self.random.bytes(at);
                        section.extend(put(word));
                        section.extend(self.random.bytes(after));
                        self.add(LENGTH, order, at, section.len(), 0, &section);
                    }
                }
                // Too short for the first word; the section ends there, or goes on.
                for left in 0..=3 {
                    for beyond in [0, 9] {
                        let section = self.random.bytes(at + left + beyond);
                        self.add(LENGTH, order, at, at + left, 0, &section);
                    }
                }
                // The part ends where the section goes on.
                for (word, after) in [(0x69, 0), (0xffff_ffff, 0), (0xffff_ffff, 7)] {
                    let mut section = self.random.bytes(at);
                    section.extend(put(word));
                    section.extend(self.random.bytes(after));
                    let end = section.len();
                    section.extend(self.random.bytes(9));
                    self.add(LENGTH, order, at, end, 0, &section);
                }
            }
            // Long lengths that a short one could hold, and the largest.
            for word in [0, 0x69, 0xffff_fff0, 0xffff_ffff, u64::MAX >> 1, u64::MAX] {
                let mut section = put(0xffff_ffff).to_vec();
                section.extend(match order {
                    0 => word.to_le_bytes(),
                    _ => word.to_be_bytes(),
                });
                self.add(LENGTH, order, 0, section.len(), 0, &section);
            }
        }
    }

    /// Unsigned LEB128: `most` continuation bytes and fewer, then a last byte or none.
    fn leb128(&mut self, op: u8, most: usize, lasts: &[u8], strings: usize) {
        for at in [0, 2] {
            for count in 0..=most {
                for fill in 0..3 {
                    if count == 0 && fill > 0 {
                        continue;
                    }
                    // `None`: the part ends; then the section does too, or goes on.
                    for last in lasts.iter().copied().map(Some).chain([None]) {
                        let mut section = self.random.bytes(at);
                        for _ in 0..count {
                            section.push(match fill {
                                0 => self.random.byte() | 0x80,
                                1 => 0x80,
                                _ => 0xff,
                            });
                        }
                        section.extend(last);
                        let end = section.len();
                        if last.is_none() && at == 2 {
                            section.push(0x01);
                        }
                        let order = self.any_order();
                        self.add(op, order, at, end, 0, &section);
                    }
                }
            }
        }
        for len in 0..=most {
            for _ in 0..strings {
                let section = self.random.bytes(len);
                let order = self.any_order();
                self.add(op, order, 0, len, 0, &section);
            }
        }
    }

    /// LEB128 numbers that are padded, and what may be wrong in the padding.
    /// `most` is the number of bytes that have bits of the width, `largest` the
    /// largest number, whose last byte has all bits that may be set there.
    fn padded(&mut self, op: u8, most: usize, largest: u64) {
        let mut counts: Vec<usize> = (2..=most + 2).chain([12, 16, 17, 40]).collect();
        counts.dedup();
        for value in [0, 1, 300, largest / 2 + 1, largest] {
            for count in counts.iter().copied().filter(|c| fits(value, *c)) {
                let number = padded_number(value, count);
                self.part_ends(op, &number);
                self.part_goes_on(op, &number);
            }
        }
        self.part_ends(op, &padded_number(largest, LONG));
        self.part_goes_on(op, &padded_number(0, LONG));

        // A set bit beyond the width, in the last byte of the width.
        let lowest = (largest >> (7 * (most - 1))) as u8 + 1;
        for bits in [lowest, 0x40, 0x7f] {
            self.bits_behind(op, most - 1, largest, bits);
        }
        // In the first byte after it.
        for bits in [0x01, 0x40, 0x7f] {
            self.bits_behind(op, most, largest, bits);
        }
        // In a later one.
        for count in [most + 1, most + 2, 15, 16, 39] {
            self.bits_behind(op, count, largest, 0x01);
        }
        for last in [0x01, 0x81] {
            let bytes = [&continuing(largest, LONG - 1)[..], &[last]].concat();
            self.part_ends(op, &bytes);
        }

        // The part ends inside the padding.
        for count in [most, most + 1, most + 2, 15, 16, 17, 40] {
            for value in [0, largest] {
                self.part_ends(op, &continuing(value, count));
            }
        }
        self.part_ends(op, &continuing(largest, LONG));
    }

    /// Set bits beyond the width in a byte that stands behind `count` bytes of
    /// a padded number, with and without the continuation bit.
    fn bits_behind(&mut self, op: u8, count: usize, largest: u64, bits: u8) {
        for value in [0, largest] {
            for last in [bits, bits | 0x80] {
                let bytes = [&continuing(value, count)[..], &[last]].concat();
                self.part_ends(op, &bytes);
                self.part_goes_on(op, &bytes);
            }
        }
    }

    /// The part ends with these bytes; then the section does too, or goes on
    /// with a byte that would end a number.
    fn part_ends(&mut self, op: u8, bytes: &[u8]) {
        for beyond in [0, 1] {
            let at = 2 * beyond;
            let mut section = self.random.bytes(at);
            section.extend(bytes);
            let end = section.len();
            section.resize(end + beyond, 0);
            let order = self.any_order();
            self.add(op, order, at, end, 0, &section);
        }
    }

    /// The part goes on behind these bytes.
    fn part_goes_on(&mut self, op: u8, bytes: &[u8]) {
        let mut section = self.random.bytes(1);
        section.extend(bytes);
        section.extend([0x00, 0x01]);
        let order = self.any_order();
        self.add(op, order, 1, section.len(), 0, &section);
    }

    fn skip_and_split(&mut self) {
        for op in [SKIP, SPLIT] {
            for (len, at, end) in [
                (0, 0, 0),
                (1, 0, 1),
                (1, 1, 1),
                (1, 0, 0),
                (2, 0, 2),
                (5, 0, 5),
                (5, 2, 4),
                (6, 1, 6),
                (6, 3, 3),
                (7, 3, 5),
                (9, 0, 7),
                (9, 4, 9),
                (9, 9, 9),
            ] {
                let left: usize = end - at;
                let mut args = vec![0, 1, left.saturating_sub(1), left, left + 1, 65535];
                args.sort();
                args.dedup();
                for arg in args {
                    let section = self.random.bytes(len);
                    let order = self.any_order();
                    self.add(op, order, at, end, arg, &section);
                }
            }
        }
    }

    fn strings(&mut self) {
        let mut sections: Vec<Vec<u8>> = vec![
            b"".to_vec(),
            b"\0".to_vec(),
            b"a".to_vec(),
            b"\0\0\0".to_vec(),
            b"main".to_vec(),
            b"main\0".to_vec(),
            b"\0main".to_vec(),
            b"\0main\0".to_vec(),
            b"ab\0cd\0\0ef\0".to_vec(),
            b"ab\0cd".to_vec(),
            vec![0xff, 0xfe, 0x80, 0x00, 0xc3, 0xa9, 0x00],
            vec![0x80, 0x81, 0xff],
        ];
        let mut long = self.random.distinct(40);
        long.push(0);
        sections.push(long);
        for section in &sections {
            let len = section.len();
            let mut args = vec![0, 1, len.saturating_sub(1), len, len + 1, 65535];
            args.extend(
                section
                    .iter()
                    .enumerate()
                    .filter(|(_, b)| **b == 0)
                    .map(|(i, _)| i),
            );
            args.sort();
            args.dedup();
            for arg in args {
                let order = self.any_order();
                self.add(STR, order, 0, len, arg, section);
            }
        }
        // Every offset of a section with many zero bytes.
        for _ in 0..3 {
            let section: Vec<u8> = self
                .random
                .bytes(12)
                .iter()
                .map(|b| if b % 3 == 0 { 0 } else { *b })
                .collect();
            for arg in 0..=section.len() + 1 {
                let order = self.any_order();
                self.add(STR, order, 0, section.len(), arg, &section);
            }
        }
    }
}

// ---------------------------------------------------------------------------

/// A few cases with answers that were worked out by hand.
fn check_by_hand() {
    let nine_ff_and = |last: u8| [[0xff; 9].as_slice(), &[last]].concat();
    let checks: Vec<(u8, u8, usize, usize, Vec<u8>, &str)> = vec![
        (
            ULEB128,
            0,
            0,
            0,
            nine_ff_and(1),
            "uleb128 ok 18446744073709551615 10",
        ),
        (ULEB128, 0, 0, 0, nine_ff_and(2), "uleb128 refused 7 0"),
        (ULEB128, 0, 0, 0, nine_ff_and(0x82), "uleb128 refused 7 0"),
        (ULEB128, 0, 0, 0, nine_ff_and(0x81), "uleb128 refused 1 10"),
        (
            ULEB128,
            0,
            0,
            0,
            [nine_ff_and(0x81), vec![0x80, 0x00, 0x01]].concat(),
            "uleb128 ok 18446744073709551615 12",
        ),
        (
            ULEB128,
            0,
            0,
            0,
            [nine_ff_and(0x81), vec![0x80, 0x81]].concat(),
            "uleb128 refused 7 0",
        ),
        (
            ULEB128_U16,
            0,
            0,
            0,
            vec![0xff, 0xff, 0x03],
            "uleb128_u16 ok 65535 3",
        ),
        (
            ULEB128_U16,
            0,
            0,
            0,
            vec![0xff, 0xff, 0x04],
            "uleb128_u16 refused 7 0",
        ),
        (
            ULEB128_U16,
            0,
            0,
            0,
            vec![0xff, 0xff, 0x83, 0x80, 0x00, 0x01],
            "uleb128_u16 ok 65535 5",
        ),
        (
            ULEB128_U16,
            0,
            0,
            0,
            vec![0xff, 0xff, 0x83, 0x80],
            "uleb128_u16 refused 1 4",
        ),
        (
            ULEB128_U16,
            0,
            0,
            0,
            vec![0x80, 0x80, 0x80, 0x01],
            "uleb128_u16 refused 7 0",
        ),
        (
            LENGTH,
            0,
            0,
            0,
            vec![0xef, 0xff, 0xff, 0xff],
            "length ok 4294967279 4 4",
        ),
        (
            LENGTH,
            1,
            0,
            0,
            vec![0xff, 0xff, 0xff, 0xf0],
            "length refused 2 4294967280",
        ),
        (LENGTH, 0, 0, 0, vec![0xff; 11], "length refused 1 4"),
        (
            LENGTH,
            0,
            0,
            0,
            vec![0xff; 12],
            "length ok 18446744073709551615 8 12",
        ),
        (U16, 0, 1, 0, vec![9, 0x34, 0x12], "u16 ok 4660 3"),
        (U16, 1, 1, 0, vec![9, 0x34, 0x12], "u16 ok 13330 3"),
        (U32, 0, 1, 0, vec![9, 1, 2, 3], "u32 refused 1 1"),
        (SKIP, 0, 1, 2, vec![7, 7, 7], "skip ok 3"),
        (SKIP, 0, 1, 3, vec![7, 7, 7], "skip refused 1 1"),
        (SPLIT, 0, 1, 1, vec![7, 7, 7], "split ok 1 2"),
        (STR, 0, 0, 1, b"abc\0".to_vec(), "str ok 1 2"),
        (STR, 0, 0, 1, b"abc".to_vec(), "str refused 1 1"),
        (STR, 0, 0, 4, b"abc".to_vec(), "str refused 1 0"),
    ];
    for (op, order, at, arg, section, text) in checks {
        let case = Case {
            op,
            order,
            at: at as u16,
            end: section.len() as u16,
            arg: arg as u16,
            section: &section,
        };
        assert_eq!(answer(&case).text, text);
    }
}

fn main() {
    let arguments: Vec<_> = std::env::args_os().skip(1).collect();
    let [directory] = arguments.as_slice() else {
        eprintln!("usage: gimli-oracle OUTPUT_DIRECTORY");
        std::process::exit(2);
    };
    let directory = Path::new(directory);

    check_by_hand();

    let mut maker = Maker {
        random: Random(0x9e37_79b9_7f4a_7c15),
        out: Vec::new(),
        count: 0,
    };
    maker.fixed();
    maker.initial_length();
    maker.leb128(ULEB128, 12, &[0, 1, 2, 3, 0x7f], 5);
    maker.leb128(ULEB128_U16, 4, &[0, 1, 2, 3, 4, 5, 0x7f], 6);
    maker.skip_and_split();
    maker.strings();
    maker.padded(ULEB128, 10, u64::MAX);
    maker.padded(ULEB128_U16, 3, u16::MAX.into());
    let cases = maker.out;
    assert!(cases.len() <= MOST_BYTES, "{} bytes", cases.len());

    // For each op: cases, refusals, refusals after which the reader had moved.
    let mut counts = [[0; 3]; STR as usize + 1];
    let mut answers = String::new();
    let mut rest = cases.as_slice();
    let mut number = 0;
    while !rest.is_empty() {
        let (case, after) = Case::parse(rest);
        let answer = answer(&case);
        answers += &format!("{number} {}\n", answer.text);
        let count = &mut counts[usize::from(case.op)];
        count[0] += 1;
        count[1] += usize::from(answer.refused);
        count[2] += usize::from(answer.refused && answer.moved);
        number += 1;
        rest = after;
    }
    assert_eq!(number, maker.count);

    std::fs::create_dir_all(directory).expect("cannot make the directory");
    std::fs::write(directory.join("cases.bin"), &cases).expect("cannot write cases.bin");
    std::fs::write(directory.join("answers.txt"), &answers).expect("cannot write answers.txt");

    println!("{number} cases, {} bytes", cases.len());
    for op in U8..=STR {
        let [all, refused, moved] = counts[usize::from(op)];
        println!(
            "{:12} {all:4} cases, {refused:4} refused, {moved:4} of these moved",
            name(op)
        );
    }
}
