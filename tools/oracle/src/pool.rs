//! gimli's answers to the calls on the entry pool of an index: the series of each name, and the entry at each handle with its facts.

use crate::answers::{Answers, MOST, or_none, type_unit};
use crate::lent::{Bytes, Lent};
use gimli::{NameEntry, NameEntryIter, NameEntryOffset, NameIndex, NameTableIndex};

/// No more steps than this are made for a name; one more after the step that ends its series.
const STEPS: usize = 12;

/// The pool is asked for an entry at each offset up to its end, and no more than this one, and at the offset after that.
const LAST: usize = 20;

/// What is at a handle.
type Entry<'e, 'a> = gimli::Result<&'e NameEntry<Bytes<'a>>>;

/// Where the pool of an index lies.
struct Pool {
    /// Its place in the section.
    place: u64,
    len: usize,
}

impl Pool {
    /// gimli gives neither number: an offset far past the pool's end is refused with the pool's place, and the length is in the text
    /// for debugging.
    fn of(lent: &Lent, index: &NameIndex<Bytes>) -> Pool {
        let past = index.name_entry(NameEntryOffset(usize::MAX)).unwrap_err();
        Pool { place: lent.refusal(past).value, len: left(&format!("{index:?}"), "entry_pool") }
    }

    /// The place of a cursor.
    fn place_of(&self, cursor: &NameEntryIter<Bytes>) -> u64 {
        self.place + (self.len - left(&format!("{cursor:?}"), "entries")) as u64
    }
}

/// How many bytes a reader has, from gimli's text for debugging: it shows the first eight, and the count where there are more.
pub fn left(text: &str, field: &str) -> usize {
    let (_, reader) = text.split_once(&format!(" {field}: EndianSlice(")).unwrap();
    let (_, bytes) = reader.split_once('[').unwrap();
    let (bytes, _) = bytes.split_once(']').unwrap();
    match bytes.split_once("...; ") {
        Some((_, count)) => count.parse().unwrap(),
        None => bytes.matches("0x").count(),
    }
}

/// The series of each name and of two numbers past the last, and then the handles.
pub fn entries(lent: &Lent, index: &NameIndex<Bytes>, out: &mut Answers) {
    let pool = Pool::of(lent, index);
    for number in 0..index.name_count().min(MOST) + 2 {
        series(lent, index, &pool, number, out);
    }
    handles(lent, index, &pool, out);
}

/// The cursor of a name, and its steps.
fn series(lent: &Lent, index: &NameIndex<Bytes>, pool: &Pool, number: u32, out: &mut Answers) {
    let cursor = index.name_entries(NameTableIndex(number));
    let place = cursor.as_ref().map(|cursor| pool.place_of(cursor)).map_err(|error| *error);
    out.call(lent, "name_entries", &format!(" {number}"), place);
    if let Ok(cursor) = cursor {
        steps(lent, index, cursor, out);
    }
}

fn steps<'a>(lent: &Lent, index: &NameIndex<Bytes<'a>>, mut cursor: NameEntryIter<Bytes<'a>>, out: &mut Answers) {
    for _ in 0..STEPS {
        if !step(lent, index, &mut cursor, out) {
            step(lent, index, &mut cursor, out);
            return;
        }
    }
}

/// A step, and the facts of its entry where the handles do not go so far. It says whether there was an entry.
fn step<'a>(lent: &Lent, index: &NameIndex<Bytes<'a>>, cursor: &mut NameEntryIter<Bytes<'a>>, out: &mut Answers) -> bool {
    let answer = cursor.next();
    let line = answer.as_ref().map_err(|error| *error).map(|entry| match entry {
        Some(entry) => format!("{} {}", entry.offset.0, shown(entry)),
        None => "end".to_string(),
    });
    out.call(lent, "next", "", line);
    let Ok(Some(entry)) = answer else {
        return false;
    };
    if entry.offset.0 > LAST + 1 {
        facts(lent, index, &format!(" {}", entry.offset.0), Ok(&entry), out);
    }
    true
}

/// The code and the tag of an entry.
fn shown(entry: &NameEntry<Bytes>) -> String {
    format!("{} {}", entry.abbrev_code, entry.tag.0)
}

/// The entry at each offset, and its facts. Of the refused ones only the first has lines for its facts.
fn handles(lent: &Lent, index: &NameIndex<Bytes>, pool: &Pool, out: &mut Answers) {
    let mut refused = false;
    for offset in 0..pool.len.min(LAST) + 2 {
        let handle = format!(" {offset}");
        let entry = index.name_entry(NameEntryOffset(offset));
        let entry = entry.as_ref().map_err(|error| *error);
        out.call(lent, "name_entry", &handle, entry.map(shown));
        if entry.is_ok() || !refused {
            facts(lent, index, &handle, entry, out);
        }
        refused |= entry.is_err();
    }
}

/// The five facts of an entry. A refused entry has none, and its refusal stands in their place.
fn facts<'a>(lent: &Lent, index: &NameIndex<Bytes<'a>>, handle: &str, entry: Entry<'_, 'a>, out: &mut Answers) {
    let unit = entry.and_then(|entry| entry.compile_unit(index));
    out.call(lent, "entry_compile_unit", handle, unit.map(|unit| or_none(unit.map(|offset| offset.0))));
    let unit = entry.and_then(|entry| entry.type_unit(index));
    out.call(lent, "entry_type_unit", handle, unit.map(|unit| or_none(unit.map(type_unit))));
    let die = entry.and_then(NameEntry::die_offset);
    out.call(lent, "die_offset", handle, die.map(|die| or_none(die.map(|offset| offset.0))));
    let parent = entry.and_then(NameEntry::parent);
    out.call(lent, "parent", handle, parent.map(|parent| or_none(parent.map(parent_of))));
    let hash = entry.and_then(NameEntry::type_hash);
    out.call(lent, "type_hash", handle, hash.map(or_none));
}

/// The parent that an attribute gives: an entry, or none.
fn parent_of(parent: Option<NameEntryOffset>) -> String {
    match parent {
        Some(offset) => format!("entry {}", offset.0),
        None => "none".to_string(),
    }
}
