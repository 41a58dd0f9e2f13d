//! The names of an index, and the strings of .debug_str.

use crate::desk::Desk;
use crate::numbers;
use crate::tally::Call;
use crate::twin::Twin;
use gimli::{DebugStr, DebugStrOffset, NameTableIndex};

/// .debug_str is asked for the strings at so many of its first places.
const FIRST: usize = 6;

/// The string offset and the string of each name, and of numbers past the last.
pub fn names(desk: &mut Desk, twin: &Twin) {
    let strings = DebugStr::from(twin.view.lent.strings);
    for number in desk.numbers(twin.index.name_count()) {
        let words = || format!("name {number}");
        let (name, theirs) = (numbers::NameTableIndex(number), NameTableIndex(number));
        let offset = twin.view.answer(twin.index.name_string_offset(theirs), |offset| (1, offset.0 as u64));
        desk.same(Call::NameStringOffset, words, desk.ours.name_string_offset(desk.index, name), offset);
        let string = twin.view.string(twin.index.name_string(theirs, &strings));
        desk.same(Call::NameString, words, desk.ours.name_string(desk.index, name), string);
    }
}

/// The strings at places of .debug_str, at its end and past it.
pub fn strings(desk: &mut Desk) {
    let view = desk.view();
    let strings = DebugStr::from(view.lent.strings);
    let len = desk.case.strings.len();
    let mut offsets: Vec<usize> = (0..len.min(FIRST)).collect();
    offsets.extend([len.saturating_sub(1), len, len + 1, desk.random.below(len + 1), desk.random.below(len + 1)]);
    offsets.push(desk.random.pick(&[usize::MAX, 1 << 63, 1 << 32, 1 << 31]));
    for offset in offsets {
        let string = view.string(strings.get_str(DebugStrOffset(offset)));
        desk.same(Call::GetStr, || format!("offset {offset}"), desk.ours.get_str(numbers::DebugStrOffset(offset)), string);
    }
}
