//! gimli on an index, with its answers in the form of ours.

use crate::ffi::{Answer, Entry, Facts, Str};
use gimli::lent::{Bytes, Lent};
use gimli::pool::left;
use gimli::{Error, NameEntry, NameEntryIter, NameIndex, NameTypeUnit, Reader};
use std::fmt::{self, Debug, Write};

/// The kinds of units.
pub const COMPILE: u32 = 1;
pub const LOCAL: u32 = 2;
pub const FOREIGN: u32 = 3;

/// What gimli reads, and how its errors become refusals.
#[derive(Clone, Copy)]
pub struct View<'a> {
    pub lent: Lent<'a>,
    /// What is added to a place in gimli's section to have it in the one that is lent to us.
    pub shift: u64,
    /// Where the abbreviation table of the index cannot be read whole, the refusal of its first bad declaration. gimli then reads a
    /// copy whose table ends before that, and what it does not find there is refused so.
    pub bad: Option<Answer>,
}

impl View<'_> {
    pub fn refusal(&self, error: Error) -> Answer {
        if let (Error::InvalidAbbreviationCode(_), Some(bad)) = (error, self.bad) {
            return bad;
        }
        let refusal = self.lent.refusal(error);
        let value = match error {
            Error::UnexpectedEof(address) if self.in_names(address.0) => refusal.value.wrapping_add(self.shift),
            _ => refusal.value,
        };
        Answer { status: refusal.number.into(), kind: 0, value }
    }

    fn in_names(&self, address: u64) -> bool {
        let names = self.lent.names.slice();
        let start = names.as_ptr() as u64;
        start <= address && address <= start + names.len() as u64
    }

    /// Kind and value of an answer, or the refusal.
    pub fn answer<T>(&self, answer: gimli::Result<T>, told: impl FnOnce(T) -> (u32, u64)) -> Answer {
        match answer.map(told) {
            Ok((kind, value)) => Answer { status: 0, kind, value },
            Err(error) => self.refusal(error),
        }
    }

    /// Where a string stands in .debug_str.
    pub fn string(&self, answer: gimli::Result<Bytes>) -> Str {
        match answer {
            Ok(string) => Str { status: 0, kind: 1, value: string.offset_from(&self.lent.strings) as u64, len: string.len() },
            Err(error) => {
                let Answer { status, value, .. } = self.refusal(error);
                Str { status, value, ..Str::default() }
            }
        }
    }
}

/// An index that gimli opened.
pub struct Twin<'a> {
    pub view: View<'a>,
    pub index: NameIndex<Bytes<'a>>,
}

impl<'a> Twin<'a> {
    /// An entry that a step gives, with the cursor after it, or the entry of a handle, whose `next` is 0.
    pub fn entry(&self, answer: gimli::Result<Option<NameEntry<Bytes<'a>>>>, next: usize) -> Entry {
        match answer {
            Ok(Some(entry)) => Entry {
                status: 0,
                kind: 1,
                value: entry.offset.0 as u64,
                next,
                abbrev_code: entry.abbrev_code,
                facts: self.facts(&entry),
                tag: entry.tag.0.into(),
            },
            Ok(None) => Entry { next, ..Entry::default() },
            Err(error) => refused_entry(self.view.refusal(error), next),
        }
    }

    fn facts(&self, entry: &NameEntry<Bytes<'a>>) -> Facts {
        let view = self.view;
        Facts {
            compile_unit: view.answer(entry.compile_unit(&self.index), |unit| or_none(unit.map(|unit| (COMPILE, unit.0 as u64)))),
            type_unit: view.answer(entry.type_unit(&self.index), |unit| or_none(unit.map(type_unit))),
            die_offset: view.answer(entry.die_offset(), |die| or_none(die.map(|die| (1, die.0 as u64)))),
            parent: view.answer(entry.parent(), |parent| match parent {
                None => (0, 0),
                Some(Some(parent)) => (1, parent.0 as u64),
                Some(None) => (2, 0),
            }),
            type_hash: view.answer(entry.type_hash(), |hash| or_none(hash.map(|hash| (1, hash)))),
        }
    }
}

/// What is there, or kind 0.
pub fn or_none(told: Option<(u32, u64)>) -> (u32, u64) {
    told.unwrap_or((0, 0))
}

pub fn type_unit(unit: NameTypeUnit<usize>) -> (u32, u64) {
    match unit {
        NameTypeUnit::Local(offset) => (LOCAL, offset.0 as u64),
        NameTypeUnit::Foreign(signature) => (FOREIGN, signature.0),
    }
}

/// A refused entry: each of its facts is refused so.
pub fn refused_entry(refusal: Answer, next: usize) -> Entry {
    let facts = Facts { compile_unit: refusal, type_unit: refusal, die_offset: refusal, parent: refusal, type_hash: refusal };
    Entry { status: refusal.status, value: refusal.value, next, facts, ..Entry::default() }
}

/// How many bytes an entry cursor of gimli's has left. That is not public: it is in the beginning of gimli's text for debugging.
pub fn bytes_left(cursor: &NameEntryIter<Bytes>) -> usize {
    left(&beginning(cursor), "entries")
}

/// The beginning of a text for debugging; the rest is not made.
fn beginning(what: &impl Debug) -> String {
    let mut out = Beginning(String::new());
    // Broken off on purpose.
    let _ = write!(out, "{what:?}");
    out.0
}

/// Takes no more than it needs.
struct Beginning(String);

impl Write for Beginning {
    fn write_str(&mut self, text: &str) -> fmt::Result {
        self.0.push_str(text);
        if self.0.len() < 200 { Ok(()) } else { Err(fmt::Error) }
    }
}
