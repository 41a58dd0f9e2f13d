//! The lines of work: each is done by both sides.

use crate::input::{Asked, Input};
use crate::over_gimli::{self, work as gimlis};
use crate::over_ours::{self, work as ours};
use debug_names::Record;
use std::fmt::Debug;

/// One side's work: it returns a sum of the answers.
pub type Work<'a> = Box<dyn Fn() -> u64 + 'a>;

/// A line of work.
pub struct Line<'a> {
    /// What --profile calls it.
    pub key: &'static str,
    pub words: &'static str,
    /// What is counted, and how many of them a run has.
    pub per: &'static str,
    pub count: u64,
    pub ours: Work<'a>,
    pub gimli: Work<'a>,
}

impl<'a> Line<'a> {
    /// An answer that is refused stops the driver: the sections are meant to be readable.
    fn new<O: Debug, G: Debug>(
        (key, words): (&'static str, &'static str),
        (count, per): (u64, &'static str),
        ours: impl Fn() -> Result<u64, O> + 'a,
        gimli: impl Fn() -> Result<u64, G> + 'a,
    ) -> Line<'a> {
        Line { key, words, per, count, ours: Box::new(move || answered(ours())), gimli: Box::new(move || answered(gimli())) }
    }
}

/// The answer of a call that is not to be refused.
fn answered<T, E: Debug>(answer: Result<T, E>) -> T {
    answer.expect("the section can be read")
}

/// The lines over an input.
pub fn lines(input: &Input) -> Vec<Line<'_>> {
    let sides = Sides::of(&input.sections.names, &input.sections.strings);
    let mut lines = vec![open(sides, input)];
    lines.extend(query(sides, PRESENT, &input.present));
    lines.extend(query(sides, ABSENT, &input.absent));
    lines.push(find_by_hash(sides, ("4", "find_by_hash, present hashes"), &input.present_hashes));
    lines.push(find_by_hash(sides, ("4n", "find_by_hash, absent hashes"), &input.absent_hashes));
    lines.push(entries(sides, input));
    lines.push(check(sides, input));
    lines.push(list(sides, input));
    lines
}

/// The sections of an input, for each side.
#[derive(Clone, Copy)]
struct Sides<'a> {
    ours: over_ours::Names<'a>,
    our_strings: over_ours::Strings<'a>,
    gimli: over_gimli::Names<'a>,
    gimli_strings: over_gimli::Strings<'a>,
}

impl<'a> Sides<'a> {
    fn of(names: &'a [u8], strings: &'a [u8]) -> Sides<'a> {
        Sides {
            ours: over_ours::DebugNames::new(names, over_ours::LittleEndian),
            our_strings: over_ours::DebugStr::new(strings, over_ours::LittleEndian),
            gimli: over_gimli::DebugNames::new(names, over_gimli::LittleEndian),
            gimli_strings: over_gimli::DebugStr::new(strings, over_gimli::LittleEndian),
        }
    }

    /// The indexes, kept open.
    fn our_indexes(&self) -> Vec<ours::Kept<'a>> {
        answered(ours::keep(&self.ours))
    }

    fn gimli_indexes(&self) -> Vec<gimlis::Kept<'a>> {
        answered(gimlis::keep(&self.gimli))
    }
}

fn open<'a>(sides: Sides<'a>, input: &Input) -> Line<'a> {
    let words = ("1", "walk and open all indexes");
    let count = (input.counts.indexes, "index");
    Line::new(words, count, move || ours::open(&sides.ours), move || gimlis::open(&sides.gimli))
}

const PRESENT: [(&str, &str); 3] = [
    ("2", "section query, a present name; gimli opens each index"),
    ("2k", "section query, a present name; gimli's indexes are kept open"),
    ("2h", "lookup of a present name, both sides' indexes kept open"),
];
const ABSENT: [(&str, &str); 3] = [
    ("3", "section query, an absent name; gimli opens each index"),
    ("3k", "section query, an absent name; gimli's indexes are kept open"),
    ("3h", "lookup of an absent name, both sides' indexes kept open"),
];

/// The queries for names: the section query against the same over gimli, which opens each index or has them open, and the lookup by the
/// calls of an index where both sides have them open.
fn query<'a>(sides: Sides<'a>, words: [(&'static str, &'static str); 3], asked: &'a [Asked]) -> [Line<'a>; 3] {
    let count = (asked.len() as u64, "query");
    let Sides { ours: names, our_strings: strings, gimli, gimli_strings } = sides;
    let section_query = move || ask(asked, |asked, records| names.query(&strings, asked.hash, &asked.name, records));
    let opening = move || ask(asked, |asked, records| gimlis::query_opening(&gimli, &gimli_strings, asked, records));
    let kept = || {
        let indexes = sides.gimli_indexes();
        move || ask(asked, |asked, records| gimlis::query_kept(&indexes, &gimli_strings, asked, records))
    };
    let our_indexes = sides.our_indexes();
    let ours_kept = move || ask(asked, |asked, records| ours::query_kept(&our_indexes, &strings, asked, records));
    [
        Line::new(words[0], count, section_query, opening),
        Line::new(words[1], count, section_query, kept()),
        Line::new(words[2], count, ours_kept, kept()),
    ]
}

/// So many records are lent to a query.
const LENT: usize = 16;

/// Queries, and the sum of their totals and records.
fn ask<E>(asked: &[Asked], query: impl Fn(&Asked, &mut [Record]) -> Result<u64, E>) -> Result<u64, E> {
    let mut records = [Record::default(); LENT];
    asked.iter().try_fold(0u64, |sum, asked| {
        let total = query(asked, &mut records)?;
        Ok(records.iter().take(total as usize).fold(sum.rotate_left(9).wrapping_add(total), add))
    })
}

/// Adds the numbers of a record to a sum.
fn add(sum: u64, record: &Record) -> u64 {
    let places = u64::from(record.index_offset.0) << 32 | u64::from(record.entry_offset.0);
    let small = u64::from(record.tag) << 48 | u64::from(record.unit_kind) << 40 | u64::from(record.has_die_offset) << 32;
    let sum = sum.rotate_left(7).wrapping_add(places) ^ small ^ u64::from(record.name.0);
    sum.rotate_left(7).wrapping_add(record.unit_value).rotate_left(7).wrapping_add(record.die_offset.0 as u64)
}

fn find_by_hash<'a>(sides: Sides<'a>, words: (&'static str, &'static str), hashes: &'a [(usize, u32)]) -> Line<'a> {
    let (ours, gimli) = (sides.our_indexes(), sides.gimli_indexes());
    let count = (hashes.len() as u64, "lookup");
    Line::new(words, count, move || ours::find_by_hash(&ours, hashes), move || gimlis::find_by_hash(&gimli, hashes))
}

fn entries<'a>(sides: Sides<'a>, input: &Input) -> Line<'a> {
    let (ours, gimli) = (sides.our_indexes(), sides.gimli_indexes());
    let words = ("5", "all entries of all names, with five facts");
    let count = (input.counts.entries, "entry");
    Line::new(words, count, move || ours::entries(&ours), move || gimlis::entries(&gimli))
}

fn check<'a>(sides: Sides<'a>, input: &Input) -> Line<'a> {
    let (ours, gimli) = (sides.our_indexes(), sides.gimli_indexes());
    let count = (input.counts.names, "name");
    let our_check = move || ours::check(&ours, over_ours::missed);
    Line::new(("6", "table check"), count, our_check, move || gimlis::check(&gimli, gimlis::missed))
}

fn list<'a>(sides: Sides<'a>, input: &Input) -> Line<'a> {
    let (ours, gimli) = (sides.our_indexes(), sides.gimli_indexes());
    let words = ("7", "list all names: string, hash, number of entries");
    let count = (input.counts.names, "name");
    let our_list = move || ours::list(&ours, &sides.our_strings);
    Line::new(words, count, our_list, move || gimlis::list(&gimli, &sides.gimli_strings))
}
