//! The section query. gimli has none: tools/oracle works it out from gimli's own calls, by the documents' definition.

use crate::desk::Desk;
use crate::ffi::{Answer, Record};
use crate::numbers::{self, DebugNamesOffset, NameEntryOffset, UnitOffset};
use crate::tally::Call;
use crate::twin::Twin;
use gimli::hashes::stored;
use gimli::query::section;
use gimli::{DebugStr, NameTableIndex};

/// The names of an index that are asked for, at most.
const NAMES: usize = 4;

/// What a record holds that no query writes.
const FILLING: Record = Record {
    unit_value: 0xa5a5_a5a5_a5a5_a5a5,
    die_offset: UnitOffset(0xa6a6_a6a6),
    index_offset: DebugNamesOffset(0xa7a7_a7a7),
    entry_offset: NameEntryOffset(0xa8a8_a8a8),
    name: numbers::NameTableIndex(0xa9a9_a9a9),
    tag: 0xaaaa,
    unit_kind: 0xab,
    has_die_offset: 0xac,
};

/// So many records stand behind those that are lent.
const BEHIND: usize = 2;

/// Notes names of an index: with their own hash, and sometimes with another; or another name with a stored hash.
pub fn ask_for_names(desk: &mut Desk, twin: &Twin) {
    let stored = stored(&twin.view.lent, &twin.index);
    let strings = DebugStr::from(twin.view.lent.strings);
    let count = twin.index.name_count() as usize;
    let first = desk.random.below(count.max(NAMES) - NAMES + 1);
    for number in first..count.min(first + NAMES) {
        let Ok(string) = twin.index.name_string(NameTableIndex(number as u32), &strings) else {
            continue;
        };
        let name = string.slice().to_vec();
        let hash = stored.get(number).copied().unwrap_or(desk.random.below(3) as u32);
        match desk.random.below(8) {
            0 => desk.asked.push((hash.wrapping_add(1), name.clone())),
            1 if !stored.is_empty() => desk.asked.push((desk.random.pick(&stored), name.clone())),
            2 => desk.asked.push((hash, [&name[..], b"\0"].concat())),
            3 => desk.asked.push((hash, name[..name.len().saturating_sub(1)].to_vec())),
            4 => desk.asked.push((hash, b"no such name".to_vec())),
            _ => {}
        }
        desk.asked.push((hash, name));
    }
}

/// The queries that were noted, one for the empty name, and one for a part of .debug_str.
pub fn queries(desk: &mut Desk) {
    let mut asked = std::mem::take(&mut desk.asked);
    asked.push((desk.random.below(3) as u32, Vec::new()));
    let len = desk.case.strings.len();
    let from = desk.random.below(len + 1);
    let to = desk.random.between(from, len);
    asked.push((desk.random.next() as u32, desk.case.strings[from..to].to_vec()));
    for (hash, name) in asked {
        query(desk, hash, &name);
    }
}

/// A query with some number of records, and again with another.
fn query(desk: &mut Desk, hash: u32, name: &[u8]) {
    let mut found = Vec::new();
    let answer = section(&desk.lent, hash, name, &mut found);
    if answer.is_err() {
        found.clear();
    }
    let records: Vec<Record> = found.iter().map(record).collect();
    if found.iter().any(|record| record.both) {
        desk.tally.other("query: a type unit beside a compile unit");
    }
    let expected = desk.view().answer(answer, |()| (1, records.len() as u64));
    let total = records.len();
    let few = desk.random.pick(&[0, 1, 2, 4, total.saturating_sub(1)]);
    let many = desk.random.pick(&[4, total, total + 1, total + 7, 40]);
    for lent in [few, many] {
        lend(desk, hash, name, lent, expected, &records);
        kinds(desk, lent, expected, &records);
    }
}

/// What is shown of an entry.
fn record(found: &gimli::query::Record) -> Record {
    let (unit_kind, unit_value) = found.unit.shown();
    Record {
        unit_value,
        die_offset: UnitOffset(found.die.unwrap_or(0)),
        index_offset: DebugNamesOffset(found.index as u32),
        entry_offset: NameEntryOffset(found.entry as u32),
        name: numbers::NameTableIndex(found.name),
        tag: found.tag,
        unit_kind,
        has_die_offset: found.die.is_some().into(),
    }
}

/// The query with that many records: the answer, the records that are written, and all others as they were.
fn lend(desk: &mut Desk, hash: u32, name: &[u8], lent: usize, expected: Answer, records: &[Record]) {
    let words = || format!("hash {hash} name {name:?} with {lent} records");
    let mut ours = vec![FILLING; lent + BEHIND];
    let answer = desk.ours.query(hash, name, &mut ours, lent);
    desk.same(Call::Query, words, answer, expected);
    let mut theirs = vec![FILLING; lent + BEHIND];
    let written = records.len().min(lent);
    theirs[..written].copy_from_slice(&records[..written]);
    if ours != theirs {
        desk.difference("query", &format!("{}: the records", words()), &ours, &theirs);
    }
}

/// Counts the kinds of queries and records.
fn kinds(desk: &mut Desk, lent: usize, answer: Answer, records: &[Record]) {
    desk.tally.other(match answer {
        Answer { status: 0, value: 0, .. } => "query: total 0",
        Answer { status: 0, .. } if records.len() <= lent => "query: total within the records lent",
        Answer { status: 0, .. } => "query: total above the records lent",
        _ => "query: refused",
    });
    if lent == 0 {
        desk.tally.other("query: no records lent");
    }
    for record in records.iter().take(lent) {
        desk.tally.other(match record.unit_kind {
            0 => "record: no unit",
            1 => "record: a compile unit",
            2 => "record: a local type unit",
            _ => "record: a foreign type unit",
        });
        desk.tally.other(if record.has_die_offset == 0 { "record: no DIE offset" } else { "record: a DIE offset" });
    }
}
