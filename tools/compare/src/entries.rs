//! The entries of names, and those of handles, each with its five facts.

use crate::copy;
use crate::desk::{Desk, refused};
use crate::layout::Layout;
use crate::numbers;
use crate::tally::Call;
use crate::twin::{Twin, View, bytes_left, refused_entry};
use gimli::lent::Bytes;
use gimli::{NameEntryIter, NameEntryOffset, NameIndex, NameTableIndex};

/// No more steps than this are made for a name.
const STEPS: usize = 10;

/// So many steps follow the first end.
const AFTER_END: usize = 2;

/// The pool is asked for an entry at so many of its first offsets.
const FIRST: usize = 12;

/// So many other offsets, and so many places of cursors, are taken from anywhere in the pool.
const ANY: usize = 4;

pub fn entries(desk: &mut Desk, twin: &Twin) {
    let Some(layout) = Layout::of(&desk.index) else { return };
    let pool = layout.pool();
    let mut parents = Vec::new();
    for number in desk.numbers(twin.index.name_count()) {
        series(desk, twin, number, &mut parents);
    }
    handles(desk, twin, desk.index.end - pool, &parents);
    cursors(desk, twin, &layout);
}

/// The cursor of a name, and its steps; the parents of its entries are noted.
fn series(desk: &mut Desk, twin: &Twin, number: u32, parents: &mut Vec<usize>) {
    let answer = twin.index.name_entries(NameTableIndex(number));
    let end = desk.index.end;
    let place = |cursor: &NameEntryIter<Bytes>| (1, (end - bytes_left(cursor)) as u64);
    let expected = twin.view.answer(answer.as_ref().map_err(|error| *error), place);
    let ours = desk.ours.name_entries(desk.index, numbers::NameTableIndex(number));
    desk.same(Call::NameEntries, || format!("name {number}"), ours, expected);
    if let Ok(cursor) = answer {
        steps(desk, twin, expected.value as usize, cursor, parents);
    }
}

/// Each step from the cursor that our last one handed back.
fn steps<'a>(desk: &mut Desk, twin: &Twin<'a>, first: usize, mut cursor: NameEntryIter<Bytes<'a>>, parents: &mut Vec<usize>) {
    let mut at = first;
    let mut ends = 0;
    for _ in 0..STEPS {
        let answer = cursor.next();
        let next = desk.index.end - bytes_left(&cursor);
        let expected = twin.entry(answer, next);
        let ours = desk.ours.next_entry(desk.index, at);
        desk.same(Call::NextEntry, || format!("at {at}"), ours, expected);
        if expected.facts.parent.kind == 1 {
            parents.push(expected.facts.parent.value as usize);
        }
        at = ours.next;
        ends += usize::from(expected.kind == 0);
        if ends > AFTER_END {
            return;
        }
    }
}

/// The entries at offsets in the pool, at its end and past it, and at those of parents.
fn handles(desk: &mut Desk, twin: &Twin, len: usize, parents: &[usize]) {
    let mut offsets: Vec<usize> = (0..len.min(FIRST)).collect();
    offsets.extend([len.saturating_sub(1), len, len + 1, len + 2]);
    offsets.extend((0..ANY).map(|_| desk.random.below(len + 1)));
    offsets.push(desk.random.pick(&[usize::MAX, 1 << 63, 1 << 32, (1 << 31) - 1]));
    offsets.extend(parents.iter().take(ANY));
    for offset in offsets {
        let answer = twin.index.name_entry(NameEntryOffset(offset));
        let expected = twin.entry(answer.map(Some), 0);
        let ours = desk.ours.name_entry(desk.index, numbers::NameEntryOffset(offset));
        desk.same(Call::NameEntry, || format!("offset {offset}"), ours, expected);
    }
}

/// Steps from other places: those outside of the pool are refused, and in the pool gimli reads a section whose first name has its entries
/// there.
fn cursors(desk: &mut Desk, twin: &Twin, layout: &Layout) {
    let (pool, end) = (layout.pool(), desk.index.end);
    let outside = [pool.wrapping_sub(1), end + 1, 0, desk.case.names.len() + 1, usize::MAX, 1 << 63];
    let at = desk.random.pick(&outside);
    if at < pool || at > end {
        let expected = refused_entry(refused(14), at);
        desk.same(Call::NextEntry, || format!("at {at}"), desk.ours.next_entry(desk.index, at), expected);
    }
    if twin.index.name_count() > 0 {
        for _ in 0..ANY {
            let place = desk.random.between(pool, end);
            cursor_at(desk, twin, layout, place);
        }
    }
}

/// The steps from a place of the pool.
fn cursor_at(desk: &mut Desk, twin: &Twin, layout: &Layout, place: usize) {
    let mut copy = desk.copy();
    copy.put_word(layout.entry_offsets(), desk.index.format, (place - layout.pool()) as u64);
    if twin.view.bad.is_some() {
        copy.end_table(layout.abbreviations(), layout.pool());
    }
    let memory = copy.memory();
    let view = View { lent: memory.lend(), shift: copy.shift(), bad: twin.view.bad };
    let index = NameIndex::new(copy::header(view.lent.names)).expect("a copy of an index that opens");
    let twin = Twin { view, index };
    let cursor = twin.index.name_entries(NameTableIndex(0)).expect("an entry offset in the pool");
    steps(desk, &twin, place, cursor, &mut Vec::new());
}
