//! Opening the index of a handle, and all calls on it.

use crate::copy::{self, Copy};
use crate::desk::{Desk, refused};
use crate::entries;
use crate::ffi::{Answer, Index};
use crate::handles;
use crate::hashes;
use crate::layout::{self, Layout};
use crate::misfits;
use crate::names;
use crate::query;
use crate::tally::Call;
use crate::twin::{Twin, View};
use crate::units;
use gimli::lent::Bytes;
use gimli::{NameIndex, NameIndexHeader};

/// So many handles with wrong numbers are made from each right one.
const WRONG: usize = 2;

/// One in so many handles is also used in the other byte order.
const OTHER_ORDER: usize = 4;

/// An index that opens.
const OPENED: Answer = Answer { status: 0, kind: 1, value: 0 };

/// The index of a header that a step gave, and handles with other numbers, or in the other byte order.
pub fn of_header(desk: &mut Desk, header: NameIndexHeader<Bytes>, handle: Index) {
    desk.index = handle;
    match NameIndex::new(header) {
        Ok(index) => {
            let twin = Twin { view: desk.view(), index };
            open(desk, OPENED);
            query::ask_for_names(desk, &twin);
            calls(desk, &twin);
        }
        Err(error) => {
            open(desk, desk.view().refusal(error));
            by_copy(desk, handle);
        }
    }
    for _ in 0..WRONG {
        let wrong = handles::wrong(&mut desk.random, handle, desk.case.names.len());
        by_copy(desk, wrong);
    }
    if desk.random.once_in(OTHER_ORDER) {
        desk.turn();
        by_copy(desk, handle);
        desk.turn();
    }
}

fn open(desk: &mut Desk, expected: Answer) {
    desk.same(Call::Open, String::new, desk.ours.open(desk.index), expected);
}

/// The index of any handle: gimli reads a section that is made for it.
fn by_copy(desk: &mut Desk, handle: Index) {
    desk.index = handle;
    let len = desk.case.names.len();
    if !layout::header_fits(&handle, len) {
        open(desk, refused(14));
        return misfits::refuse_all(desk, 14);
    }
    let mut copy = desk.copy();
    let memory = copy.memory();
    let view = View { lent: memory.lend(), shift: copy.shift(), bad: None };
    match NameIndex::new(copy::header(view.lent.names)) {
        Ok(index) => {
            assert!(layout::fits(&handle, len), "gimli opens {handle:?}, which does not fit");
            open(desk, OPENED);
            calls(desk, &Twin { view, index });
        }
        Err(error) => {
            let refusal = view.refusal(error);
            open(desk, refusal);
            if layout::fits(&handle, len) {
                never_opened(desk, &mut copy, refusal);
            } else {
                misfits::refuse_all(desk, 14);
            }
        }
    }
}

/// An index that fits, but whose abbreviation table cannot be read whole: all else answers. gimli reads a copy whose table ends before the
/// declaration that is refused.
fn never_opened(desk: &mut Desk, copy: &mut Copy, refusal: Answer) {
    let Some(layout) = Layout::of(&desk.index) else { return };
    copy.end_table(layout.abbreviations(), layout.pool());
    let memory = copy.memory();
    let view = View { lent: memory.lend(), shift: copy.shift(), bad: Some(refusal) };
    let index = NameIndex::new(copy::header(view.lent.names)).expect("a table that ends before its bad declaration");
    desk.tally.other("a table that was never read whole");
    calls(desk, &Twin { view, index });
}

/// All calls on an index that fits.
fn calls(desk: &mut Desk, twin: &Twin) {
    units::counts(desk, twin);
    units::units(desk, twin);
    names::names(desk, twin);
    hashes::table(desk, twin);
    entries::entries(desk, twin);
}
