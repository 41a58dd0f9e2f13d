//! The steps over the headers of a section, and what else a header says.

use crate::desk::{Desk, refused};
use crate::ffi::{Answer, Header, HeaderStep, Index};
use crate::indexes;
use crate::tally::Call;
use crate::twin::View;
use gimli::lent::Bytes;
use gimli::pool::left;
use gimli::{DebugNames, NameIndexHeader, NameIndexHeaderIter, Reader};

/// So many steps follow the first end.
const AFTER_END: usize = 2;

/// What gimli's step gives.
type Stepped<'a> = gimli::Result<Option<NameIndexHeader<Bytes<'a>>>>;

/// The steps from the section's start up to the end and beyond it, each from the cursor that our last one handed back; and the index of
/// each header.
pub fn headers(desk: &mut Desk) {
    let section = DebugNames::from(desk.lent.names);
    let mut cursor = section.headers();
    let mut at = 0;
    let mut ends = 0;
    while ends <= AFTER_END {
        let answer = cursor.next();
        let step = step(&desk.view(), 0, &answer, &cursor);
        let ours = desk.ours.next_header(at);
        desk.same(Call::NextHeader, || format!("at {at}"), ours, step);
        header_at(desk, at, &answer);
        match answer {
            Ok(Some(header)) => indexes::of_header(desk, header, ours.index),
            Ok(None) => ends += 1,
            Err(_) => {}
        }
        at = ours.next;
    }
}

/// Steps from other places: gimli is given the section from there on. Past the section's end they are refused.
pub fn cursors(desk: &mut Desk) {
    let len = desk.lent.names.slice().len();
    let past = desk.random.pick(&[len + 1, len + 2, len + 100, usize::MAX, 1 << 63, 1 << 32]);
    let places = [desk.random.below(len + 1), desk.random.below(len + 1), len, past];
    for at in places {
        if at > len {
            let step = HeaderStep { status: 14, next: at, ..HeaderStep::default() };
            desk.same(Call::NextHeader, || format!("at {at}"), desk.ours.next_header(at), step);
            let header = header(&refused(14));
            desk.same(Call::HeaderAt, || format!("at {at}"), desk.ours.header_at(at), header);
            continue;
        }
        let rest = Bytes::new(&desk.lent.names.slice()[at..], desk.lent.names.endian());
        let mut cursor = DebugNames::from(rest).headers();
        let answer = cursor.next();
        let step = step(&desk.view(), at, &answer, &cursor);
        desk.same(Call::NextHeader, || format!("at {at}"), desk.ours.next_header(at), step);
        header_at(desk, at, &answer);
    }
}

/// A step of gimli's in the form of ours. gimli's section begins at the place `start` of ours. The place of the cursor is not public in
/// gimli: it is found from the bytes that are left, which are in gimli's text for debugging.
fn step(view: &View, start: usize, answer: &Stepped, cursor: &NameIndexHeaderIter<Bytes>) -> HeaderStep {
    let len = view.lent.names.slice().len();
    let next = len - left(&format!("{cursor:?}"), "input");
    match answer {
        Ok(Some(header)) => HeaderStep { status: 0, kind: 1, value: (start + header.offset().0) as u64, next, index: handle(header, next) },
        Ok(None) => HeaderStep { next, ..HeaderStep::default() },
        Err(error) => {
            let Answer { status, value, .. } = view.refusal(*error);
            HeaderStep { status, value, next, ..HeaderStep::default() }
        }
    }
}

/// The handle of a header whose index ends at a place.
fn handle(header: &NameIndexHeader<Bytes>, end: usize) -> Index {
    Index {
        begin: end - left(&format!("{header:?}"), "content"),
        end,
        format: header.format().word_size().into(),
        compile_unit_count: header.compile_unit_count(),
        local_type_unit_count: header.local_type_unit_count(),
        foreign_type_unit_count: header.foreign_type_unit_count(),
        bucket_count: header.bucket_count(),
        name_count: header.name_count(),
        abbrev_table_size: header.abbrev_table_size(),
    }
}

/// What else the header at a place says.
fn header_at(desk: &mut Desk, at: usize, answer: &Stepped) {
    let view = desk.view();
    let expected = match answer {
        Ok(Some(told)) => {
            let string = told.augmentation_string();
            Header {
                status: 0,
                kind: 1,
                value: told.length() as u64,
                augmentation: string.map_or(0, |string| string.offset_from(&view.lent.names)),
                augmentation_len: string.map_or(0, |string| string.len()),
                version: told.version().into(),
            }
        }
        Ok(None) => Header::default(),
        Err(error) => header(&view.refusal(*error)),
    };
    desk.same(Call::HeaderAt, || format!("at {at}"), desk.ours.header_at(at), expected);
}

/// A refused header.
fn header(refusal: &Answer) -> Header {
    Header { status: refusal.status, value: refusal.value, ..Header::default() }
}
