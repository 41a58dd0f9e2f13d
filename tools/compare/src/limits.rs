//! Sections of 2,147,483,647 bytes, and of one more, which is refusal 13. They are zeros that nobody reads, so they need little memory.

use crate::desk::{Desk, refused};
use crate::ffi::{Header, HeaderStep, Index, Record, Str};
use crate::misfits;
use crate::name::Name;
use crate::numbers::{DebugStrOffset, NameTableIndex};
use crate::tally::{Call, Tally};
use gimli::bytes::Order;
use gimli::case::Case;
use gimli::lent::Memory;
use gimli::random::Random;
use std::alloc::{Layout, alloc_zeroed};

/// The most bytes of a section.
const LONGEST: usize = 2_147_483_647;

/// Zeros, one more than a section may have, for as long as the program runs; none where there is no such piece of memory.
fn zeros() -> Option<&'static [u8]> {
    let layout = Layout::array::<u8>(LONGEST + 1).ok()?;
    let start = unsafe { alloc_zeroed(layout) };
    (!start.is_null()).then(|| unsafe { std::slice::from_raw_parts(start, LONGEST + 1) })
}

/// Compares all calls on too long sections, and some on the longest.
pub fn too_long(tally: &mut Tally) {
    let Some(zeros) = zeros() else {
        return println!("left out: sections that are too long, since there is no memory for them");
    };
    let case = Case { order: Order::Little, names: Vec::new(), strings: Vec::new() };
    let memory = Memory::of(&case);
    let mut desk = Desk::new(Name::Long, &case, &memory, Random(0), tally);
    long_names(&mut desk, zeros);
    long_strings(&mut desk, zeros);
    longest(&mut desk, &zeros[..LONGEST]);
}

/// A too long .debug_names is 13 for every call, whatever the handle is.
fn long_names(desk: &mut Desk, zeros: &'static [u8]) {
    desk.ours.names = zeros;
    let fitting = Index { format: 4, end: 100, name_count: 3, ..Index::default() };
    let misfit = Index { end: LONGEST + 2, ..fitting };
    for index in [fitting, misfit, Index::default()] {
        desk.index = index;
        desk.same(Call::Open, String::new, desk.ours.open(index), refused(13));
        misfits::refuse_all(desk, 13);
    }
    for at in [0, 5, LONGEST + 1, LONGEST + 2, usize::MAX] {
        let step = HeaderStep { status: 13, next: at, ..HeaderStep::default() };
        desk.same(Call::NextHeader, || format!("at {at}"), desk.ours.next_header(at), step);
        let header = Header { status: 13, ..Header::default() };
        desk.same(Call::HeaderAt, || format!("at {at}"), desk.ours.header_at(at), header);
    }
    query(desk);
    desk.ours.names = &[];
}

/// A too long .debug_str is 13 for the calls that it is lent to, also where the handle does not fit.
fn long_strings(desk: &mut Desk, zeros: &'static [u8]) {
    desk.ours.strings = zeros;
    let refused = Str { status: 13, ..Str::default() };
    for offset in [0, LONGEST, LONGEST + 1, usize::MAX] {
        desk.same(Call::GetStr, || format!("offset {offset}"), desk.ours.get_str(DebugStrOffset(offset)), refused);
    }
    for index in [Index { format: 4, ..Index::default() }, Index::default()] {
        desk.index = index;
        desk.same(Call::NameString, || "name 0".to_string(), desk.ours.name_string(index, NameTableIndex(0)), refused);
    }
    query(desk);
    desk.ours.strings = &[];
}

fn query(desk: &mut Desk) {
    let mut records = [Record::default(); 2];
    let answer = desk.ours.query(0, b"", &mut records, 2);
    desk.same(Call::Query, || "a section that is too long".to_string(), answer, refused(13));
    assert_eq!(records, [Record::default(); 2]);
}

/// The longest sections are read: zeros are a header of length 0, which has no version, and empty strings.
fn longest(desk: &mut Desk, zeros: &'static [u8]) {
    desk.ours.names = zeros;
    for (at, step) in [
        (0, HeaderStep { status: 1, value: 4, next: LONGEST, ..HeaderStep::default() }),
        (LONGEST, HeaderStep { next: LONGEST, ..HeaderStep::default() }),
        (LONGEST + 1, HeaderStep { status: 14, next: LONGEST + 1, ..HeaderStep::default() }),
    ] {
        desk.same(Call::NextHeader, || format!("at {at}"), desk.ours.next_header(at), step);
    }
    desk.ours.strings = zeros;
    let found = |value: usize| Str { status: 0, kind: 1, value: value as u64, len: 0 };
    let refused = |value: usize| Str { status: 1, value: value as u64, ..Str::default() };
    for (offset, string) in [(0, found(0)), (LONGEST - 1, found(LONGEST - 1)), (LONGEST, refused(LONGEST)), (LONGEST + 1, refused(0))] {
        desk.same(Call::GetStr, || format!("offset {offset}"), desk.ours.get_str(DebugStrOffset(offset)), string);
    }
}
