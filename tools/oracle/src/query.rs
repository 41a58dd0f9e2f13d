//! The section query. gimli has none: it is worked out here from gimli's own calls, by document 01's definition with document 02's choice of
//! the unit (No. 5).

use crate::answers::{Answers, MOST};
use crate::hashes;
use crate::lent::{Bytes, Lent};
use gimli::constants::{DW_IDX_compile_unit, DW_IDX_type_unit};
use gimli::{DebugNames, DebugStr, NameEntry, NameIndex, NameTableIndex, NameTypeUnit, Reader};

/// So many records are lent to a query.
const LENT: usize = 4;

/// What is shown of an entry.
pub struct Record {
    /// The place of its index in the section, and whether that has a hash table.
    pub index: usize,
    pub hashed: bool,
    pub entry: usize,
    pub name: u32,
    pub tag: u16,
    pub unit: Unit,
    /// Whether the entry has both attributes of units.
    pub both: bool,
    pub die: Option<usize>,
}

/// The unit of an entry. The default compile unit of the index is shown as one that an attribute names.
pub enum Unit {
    None,
    Compile(usize),
    Default(usize),
    Local(usize),
    Foreign(u64),
}

impl Unit {
    /// Kind and value.
    pub fn shown(&self) -> (u8, u64) {
        match *self {
            Unit::None => (0, 0),
            Unit::Compile(offset) | Unit::Default(offset) => (1, offset as u64),
            Unit::Local(offset) => (2, offset as u64),
            Unit::Foreign(signature) => (3, signature),
        }
    }

    fn words(&self) -> &'static str {
        match self {
            Unit::None => "no unit",
            Unit::Compile(_) => "a compile unit",
            Unit::Default(_) => "the default unit",
            Unit::Local(_) => "a local type unit",
            Unit::Foreign(_) => "a foreign type unit",
        }
    }
}

/// For each name whose string can be read a query for the string with the hash that the name stores, or 0 where there is no hash table,
/// and one with the hash of the name after it. With the string of name 0 there are two more: one for the string with the zero byte behind
/// it, which is no name, and one for the string without its last byte.
pub fn queries(lent: &Lent, index: &NameIndex<Bytes>, out: &mut Answers) {
    let stored = hashes::stored(lent, index);
    let section = DebugStr::from(lent.strings);
    for number in 0..index.name_count().min(MOST) + 2 {
        let Ok(string) = index.name_string(NameTableIndex(number), &section) else {
            continue;
        };
        let (start, len) = (string.offset_from(&lent.strings), string.len());
        let hash_of = |number: u32| stored.get(number as usize).copied();
        let hash = hash_of(number).unwrap_or(0);
        ask(lent, hash, start, len, out);
        if let Some(other) = hash_of(number + 1) {
            ask(lent, other, start, len, out);
        }
        if number == 0 {
            ask(lent, hash, start, len + 1, out);
            if len > 0 {
                ask(lent, hash, start, len - 1, out);
            }
        }
    }
}

/// The query for the empty name with the hash 0: the one that every section has.
pub fn empty_name(lent: &Lent, out: &mut Answers) {
    ask(lent, 0, 0, 0, out);
}

/// The lines of a query for a part of .debug_str: the total or the refusal, and the records that are written.
fn ask(lent: &Lent, hash: u32, start: usize, len: usize, out: &mut Answers) {
    let name = &lent.strings.slice()[start..start + len];
    let mut records = Vec::new();
    let answer = section(lent, hash, name, &mut records);
    let matched = !records.is_empty();
    if answer.is_err() {
        records.clear();
    }
    kinds(lent, &answer, matched, &records, out);
    out.call(lent, "query", &format!(" {hash} {start} {len}"), answer.map(|()| records.len()));
    for (number, record) in records.iter().take(LENT).enumerate() {
        out.count("record", 0);
        out.line(&format!("record {number} {}", shown(record)));
    }
}

fn shown(record: &Record) -> String {
    let Record { index, entry, name, tag, .. } = record;
    let (kind, value) = record.unit.shown();
    let (flag, die) = record.die.map_or((0, 0), |offset| (1, offset));
    format!("{index} {entry} {name} {tag} {kind} {value} {flag} {die}")
}

/// The records of a section. Each index is finished before the next header.
pub fn section(lent: &Lent, hash: u32, name: &[u8], records: &mut Vec<Record>) -> gimli::Result<()> {
    let section = DebugNames::from(lent.names);
    let mut headers = section.headers();
    while let Some(header) = headers.next()? {
        let place = header.offset().0;
        let index = header.index()?;
        for candidate in candidates(&index, hash)? {
            let string = index.name_string(candidate, &DebugStr::from(lent.strings))?;
            if string.slice() == name {
                series(&index, place, candidate, records)?;
            }
        }
    }
    Ok(())
}

/// The names of `find_by_hash` up to the first end; without a hash table all names. gimli refuses no step of such a cursor.
fn candidates(index: &NameIndex<Bytes>, hash: u32) -> gimli::Result<Vec<NameTableIndex>> {
    if index.has_hash_table() {
        index.find_by_hash(hash)?.collect()
    } else {
        Ok(index.names().collect())
    }
}

/// The records of a name's series. An entry is read whole before its unit, and its unit before its DIE offset.
fn series(index: &NameIndex<Bytes>, place: usize, name: NameTableIndex, records: &mut Vec<Record>) -> gimli::Result<()> {
    let mut entries = index.name_entries(name)?;
    while let Some(entry) = entries.next()? {
        let unit = unit(index, &entry)?;
        let die = entry.die_offset()?.map(|offset| offset.0);
        records.push(Record {
            index: place,
            hashed: index.has_hash_table(),
            entry: entry.offset.0,
            name: name.0,
            tag: entry.tag.0,
            unit,
            both: has_both(&entry),
            die,
        });
    }
    Ok(())
}

/// The unit of the type_unit attribute, else of the compile_unit attribute, else the default compile unit, else none. gimli's `type_unit`
/// answers none only where the entry has no such attribute, so where one stands `compile_unit` is not called.
fn unit<'a>(index: &NameIndex<Bytes<'a>>, entry: &NameEntry<Bytes<'a>>) -> gimli::Result<Unit> {
    if let Some(unit) = entry.type_unit(index)? {
        return Ok(match unit {
            NameTypeUnit::Local(offset) => Unit::Local(offset.0),
            NameTypeUnit::Foreign(signature) => Unit::Foreign(signature.0),
        });
    }
    if let Some(offset) = entry.compile_unit(index)? {
        return Ok(Unit::Compile(offset.0));
    }
    let default = index.default_compile_unit()?;
    Ok(default.map_or(Unit::None, |offset| Unit::Default(offset.0)))
}

/// Whether an entry has both attributes of units.
fn has_both(entry: &NameEntry<Bytes>) -> bool {
    let has = |name| entry.attrs.iter().any(|attribute| attribute.name() == name);
    has(DW_IDX_type_unit) && has(DW_IDX_compile_unit)
}

/// Counts the kinds of answers.
fn kinds(lent: &Lent, answer: &gimli::Result<()>, matched: bool, records: &[Record], out: &mut Answers) {
    let mut kind = |words: &str| out.kind(&format!("query: {words}"));
    match answer {
        Ok(()) if records.is_empty() => kind("total 0"),
        Ok(()) if records.len() <= LENT => kind("total 1 to 4"),
        Ok(()) => kind("total above 4"),
        Err(error) => {
            kind(&format!("refused {}", lent.refusal(*error).number));
            if matched {
                kind("refused after a record");
            }
        }
    }
    let pairs = || records.iter().enumerate().flat_map(|(n, one)| records[..n].iter().map(move |other| (one, other)));
    if pairs().any(|(one, other)| one.index != other.index) {
        kind("several indexes");
    }
    if pairs().any(|(one, other)| (one.index, one.entry) == (other.index, other.entry)) {
        kind("an entry twice");
    }
    for record in records {
        kind(record.unit.words());
        if record.both {
            kind("a type unit beside a compile unit");
        }
        kind(if record.hashed { "by hash" } else { "without a hash table" });
        kind(if record.die.is_some() { "a DIE offset" } else { "no DIE offset" });
    }
}
