//! gimli's answers to all calls on a case, as lines of text. README.md has the form of the lines; the program
//! crates/oracle_replay writes the same lines from this project's library.
//!
//! To add calls: a function here that asks gimli and writes a line for each call, called from `opened`, and the same lines in the same
//! order in crates/oracle_replay. `hashes` has those on hash tables, `pool` those on entries, `query` the section query.

use std::collections::BTreeMap;
use std::fmt::Display;
use std::ops::RangeInclusive;

use crate::case::Case;
use crate::hashes;
use crate::lent::{Bytes, Lent, Memory};
use crate::pool;
use crate::query;
use gimli::{DebugNames, DebugStr, NameAbbreviation, NameIndex, NameIndexHeader, NameTableIndex, NameTypeUnit, Reader};

/// A damaged section may claim many units or names: no more than this many of a list are asked for, and the two after them.
pub const MOST: u32 = 40;

/// The codes that are searched for in each abbreviation table.
const CODES: [u64; 8] = [0, 1, 2, 3, 127, 128, 300, u64::MAX];

/// The calls, by the first words of their lines. A refused header step counts as `header`, although its line has no such word.
pub const CALLS: [&str; 28] = [
    "header",
    "end",
    "index",
    "counts",
    "compile_unit",
    "local_type_unit",
    "foreign_type_unit",
    "type_unit",
    "default_compile_unit",
    "names",
    "string_offset",
    "string",
    "abbreviation",
    "find_by_bucket",
    "next_in_bucket",
    "find_by_hash",
    "next_of_hash",
    "table",
    "name_entries",
    "next",
    "name_entry",
    "entry_compile_unit",
    "entry_type_unit",
    "die_offset",
    "parent",
    "type_hash",
    "query",
    "record",
];

/// gimli refuses with these numbers.
pub const REFUSALS: RangeInclusive<u8> = 1..=12;

/// The lines, and what was counted on the way.
#[derive(Default)]
pub struct Answers {
    pub text: String,
    /// How often each call was answered or refused: by the call's name and the refusal's number, 0 for an answer.
    pub tally: BTreeMap<(String, u8), usize>,
    /// How often answers of some kinds were given.
    pub kinds: BTreeMap<String, usize>,
}

impl Answers {
    pub fn line(&mut self, line: &str) {
        self.text += line;
        self.text.push('\n');
    }

    pub fn count(&mut self, call: &str, number: u8) {
        *self.tally.entry((call.to_string(), number)).or_default() += 1;
    }

    pub fn kind(&mut self, kind: &str) {
        *self.kinds.entry(kind.to_string()).or_default() += 1;
    }

    /// How often a call was answered, and how often it was refused.
    pub fn of_call(&self, name: &str) -> (usize, usize) {
        let sum = |refused: bool| {
            let own = self.tally.iter().filter(|((call, number), _)| call == name && (*number > 0) == refused);
            own.map(|(_, count)| count).sum()
        };
        (sum(false), sum(true))
    }

    /// How often there was a refusal of that number.
    pub fn refusals(&self, number: u8) -> usize {
        self.tally.iter().filter(|((_, refusal), _)| *refusal == number).map(|(_, count)| count).sum()
    }

    /// The last lines: how many sections, refusals of each number, and lines of each call there are.
    pub fn totals(&mut self, sections: usize) {
        self.line(&format!("sections {sections}"));
        for number in REFUSALS {
            self.line(&format!("refused {number} {}", self.refusals(number)));
        }
        for call in CALLS {
            let (answered, refused) = self.of_call(call);
            self.line(&format!("{call} {}", answered + refused));
        }
    }

    /// The line of a call: its words, then the answer or the refusal.
    pub fn call<T: Display>(&mut self, lent: &Lent, name: &str, argument: &str, answer: gimli::Result<T>) {
        let mut line = format!("{name}{argument}");
        match answer {
            Ok(value) => {
                line += &format!(" {value}");
                self.count(name, 0);
            }
            Err(error) => {
                let refusal = lent.refusal(error);
                line += &format!(" refused {} {}", refusal.number, refusal.value);
                self.count(name, refusal.number);
            }
        }
        self.line(&line);
    }

    /// The lines of a call for each number up to the count and two past the last, as far as `MOST` allows.
    fn numbered<T: Display>(&mut self, lent: &Lent, name: &str, count: u32, ask: impl Fn(u32) -> gimli::Result<T>) {
        for number in 0..count.min(MOST) + 2 {
            self.call(lent, name, &format!(" {number}"), ask(number));
        }
    }
}

/// Asks gimli everything about a case.
pub fn ask(number: usize, case: &Case, out: &mut Answers) {
    let memory = Memory::of(case);
    let lent = memory.lend();
    out.line(&format!("section {number}"));
    headers(&lent, out);
    query::empty_name(&lent, out);
}

/// gimli's answers for one case alone.
pub fn text(case: &Case) -> String {
    let mut answers = Answers::default();
    ask(0, case, &mut answers);
    answers.text
}

/// Header steps up to the end. After a refusal there is one more step, which says end.
fn headers(lent: &Lent, out: &mut Answers) {
    let section = DebugNames::from(lent.names);
    let mut headers = section.headers();
    loop {
        match headers.next() {
            Ok(Some(header)) => {
                out.count("header", 0);
                out.line(&header_line(lent, &header));
                index(lent, header, out);
            }
            Ok(None) => {
                out.count("end", 0);
                return out.line("end");
            }
            Err(error) => {
                let refusal = lent.refusal(error);
                out.count("header", refusal.number);
                out.line(&format!("refused {} {}", refusal.number, refusal.value));
            }
        }
    }
}

fn header_line(lent: &Lent, header: &NameIndexHeader<Bytes>) -> String {
    let counts = [
        header.compile_unit_count(),
        header.local_type_unit_count(),
        header.foreign_type_unit_count(),
        header.bucket_count(),
        header.name_count(),
        header.abbrev_table_size(),
    ];
    let augmentation = match header.augmentation_string() {
        Some(string) => format!("{} {}", string.offset_from(&lent.names), string.len()),
        None => "-".to_string(),
    };
    format!(
        "header {} {} {} {} {} {augmentation}",
        header.offset().0,
        header.length(),
        header.format().word_size(),
        header.version(),
        counts.map(|count| count.to_string()).join(" "),
    )
}

/// The index of a header.
fn index(lent: &Lent, header: NameIndexHeader<Bytes>, out: &mut Answers) {
    match NameIndex::new(header) {
        Ok(index) => {
            out.count("index", 0);
            out.line("index");
            opened(lent, &index, out);
        }
        Err(error) => out.call::<u8>(lent, "index", "", Err(error)),
    }
}

/// All calls on an index that opened, in the order of README.md.
fn opened(lent: &Lent, index: &NameIndex<Bytes>, out: &mut Answers) {
    counts(index, out);
    units(lent, index, out);
    names(index, out);
    strings(lent, index, out);
    abbreviations(index, out);
    hashes::hash_table(lent, index, out);
    pool::entries(lent, index, out);
    query::queries(lent, index, out);
}

fn counts(index: &NameIndex<Bytes>, out: &mut Answers) {
    let counts = [
        index.compile_unit_count(),
        index.local_type_unit_count(),
        index.foreign_type_unit_count(),
        index.type_unit_count(),
        index.bucket_count(),
        index.name_count(),
        index.has_hash_table().into(),
    ];
    out.count("counts", 0);
    out.line(&format!("counts {}", counts.map(|count| count.to_string()).join(" ")));
}

fn units(lent: &Lent, index: &NameIndex<Bytes>, out: &mut Answers) {
    let (local, foreign) = (index.local_type_unit_count(), index.foreign_type_unit_count());
    out.numbered(lent, "compile_unit", index.compile_unit_count(), |number| {
        index.compile_unit(number).map(|offset| offset.0)
    });
    out.numbered(lent, "local_type_unit", local, |number| {
        index.local_type_unit(number).map(|offset| offset.0)
    });
    out.numbered(lent, "foreign_type_unit", foreign, |number| {
        index.foreign_type_unit(number).map(|signature| signature.0)
    });
    out.numbered(lent, "type_unit", local + foreign, |number| {
        index.type_unit(number).map(type_unit)
    });
    let default = index.default_compile_unit().map(|unit| or_none(unit.map(|offset| offset.0)));
    out.call(lent, "default_compile_unit", "", default);
}

pub fn type_unit(unit: NameTypeUnit<usize>) -> String {
    match unit {
        NameTypeUnit::Local(offset) => format!("local {}", offset.0),
        NameTypeUnit::Foreign(signature) => format!("foreign {}", signature.0),
    }
}

/// What there is, or a dash.
pub fn or_none<T: Display>(value: Option<T>) -> String {
    value.map_or("-".to_string(), |value| value.to_string())
}

/// The numbers that the iterator over names gives, on one line.
fn names(index: &NameIndex<Bytes>, out: &mut Answers) {
    let numbers = index.names().take(MOST as usize).map(|name| format!(" {}", name.0));
    let line = format!("names{}", numbers.collect::<String>());
    out.count("names", 0);
    out.line(&line);
}

/// Offset and string of each name, and of two numbers past the last.
fn strings(lent: &Lent, index: &NameIndex<Bytes>, out: &mut Answers) {
    let section = DebugStr::from(lent.strings);
    for number in 0..index.name_count().min(MOST) + 2 {
        let name = NameTableIndex(number);
        let argument = format!(" {number}");
        let offset = index.name_string_offset(name).map(|offset| offset.0);
        out.call(lent, "string_offset", &argument, offset);
        let string = index.name_string(name, &section);
        let string = string.map(|s| format!("{} {}", s.offset_from(&lent.strings), s.len()));
        out.call(lent, "string", &argument, string);
    }
}

fn abbreviations(index: &NameIndex<Bytes>, out: &mut Answers) {
    for code in CODES {
        let answer = match index.abbreviations().get(code) {
            Some(found) => declaration(found),
            None => "-".to_string(),
        };
        out.count("abbreviation", 0);
        out.kind(if answer == "-" { "abbreviation: none" } else { "abbreviation: found" });
        out.line(&format!("abbreviation {code} {answer}"));
    }
}

/// The tag, and name and form of each attribute.
fn declaration(found: &NameAbbreviation) -> String {
    let pair = |name: u16, form: u16| format!(" {name}:{form}");
    let pairs = found.attributes().iter().map(|a| pair(a.name().0, a.form().0));
    format!("{}{}", found.tag().0, pairs.collect::<String>())
}
