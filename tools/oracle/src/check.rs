//! What must hold before anything is written: gimli's answers for a section that was worked out by hand, that the sections that are
//! meant to be valid are valid for gimli, that padded ones are answered as before the padding, and that there is enough of everything.

use crate::answers::{self, Answers, CALLS, REFUSALS};
use crate::bytes::Order;
use crate::case::Case;
use crate::fixed;
use crate::lent::{Bytes, Memory};
use gimli::{DebugNames, EndianSlice, NameIndex, Reader, RunTimeEndian};

/// Case A is answered as it was by hand.
pub fn case_a() {
    assert_eq!(answers::text(&fixed::case_a()), fixed::CASE_A_ANSWERS);
}

/// The fewest sections; half of all must be damaged.
const SECTIONS: usize = 2000;

/// How often each refusal must be met, and each call be answered, and be refused.
const TIMES: usize = 20;

/// The calls that gimli does not refuse on an index that it opened, the step that says end, and the lines of records.
const NEVER_REFUSED: [&str; 8] = [
    "end",
    "counts",
    "default_compile_unit",
    "names",
    "abbreviation",
    "next_in_bucket",
    "next_of_hash",
    "record",
];

/// The kinds of answers that queries must have as often; a refusal of each number but 10 is one too. The last nine are counted for each
/// record.
const QUERIES: [&str; 15] = [
    "total 0",
    "total 1 to 4",
    "total above 4",
    "refused after a record",
    "several indexes",
    "an entry twice",
    "no unit",
    "a compile unit",
    "the default unit",
    "a local type unit",
    "a foreign type unit",
    "a type unit beside a compile unit",
    "by hash",
    "without a hash table",
    "no DIE offset",
];

/// There are enough sections, damaged ones, refusals, lines of each call, and kinds of answers of queries.
pub fn enough(sections: usize, damaged: usize, answers: &Answers) {
    assert!(sections >= SECTIONS && 2 * damaged >= sections, "too few sections");
    for number in REFUSALS {
        assert!(answers.refusals(number) >= TIMES, "too few refusals {number}");
    }
    for call in CALLS {
        let (answered, refused) = answers.of_call(call);
        assert!(answered >= TIMES, "{call} is not answered often enough");
        let never = NEVER_REFUSED.contains(&call);
        assert!(if never { refused == 0 } else { refused >= TIMES }, "{call} is refused {refused} times");
    }
    queries(answers);
}

/// A query reads no entry by its handle alone, so that no refusal has the number 10.
fn queries(answers: &Answers) {
    let count = |kind: &str| answers.kinds.get(&format!("query: {kind}")).copied().unwrap_or(0);
    for kind in QUERIES {
        assert!(count(kind) >= TIMES, "too few queries: {kind}");
    }
    for number in REFUSALS {
        let refused = count(&format!("refused {number}"));
        assert!(if number == 10 { refused == 0 } else { refused >= TIMES }, "queries are refused {number} {refused} times");
    }
}

/// Every header of a valid section is read, every index opens, its hash table is complete, and its entries can be read.
pub fn valid(case: &Case) {
    let memory = Memory::of(case);
    let section = DebugNames::from(memory.lend().names);
    for header in section.headers() {
        let index = header.unwrap().index().unwrap();
        hash_table(&index);
        entries(&index);
    }
}

/// The runs of all buckets together have every name.
fn hash_table(index: &NameIndex<Bytes>) {
    let mut names = 0;
    for bucket in 0..index.bucket_count() {
        let run = index.find_by_bucket(bucket).unwrap();
        names += run.map_or(0, |run| run.map(Result::unwrap).count());
    }
    assert!(!index.has_hash_table() || names == index.name_count() as usize);
}

fn entries(index: &NameIndex<Bytes>) {
    for name in index.names() {
        for entry in index.name_entries(name).unwrap() {
            entry.unwrap();
        }
    }
}

/// The queries on a section and on its padded form have the same answers, and there are some. It gives how many lines of queries and of
/// records there are.
pub fn padded(case: &Case, padded: &Case) -> (usize, usize) {
    let (lines, others) = (queries_without_places(case), queries_without_places(padded));
    let different = lines.iter().zip(&others).find(|(line, other)| line != other);
    assert!(lines == others, "a padded section is answered otherwise: {different:?}");
    let records = lines.iter().filter(|line| line.starts_with("record ")).count();
    assert!(records < lines.len(), "no queries on a padded section");
    (lines.len() - records, records)
}

/// The entries of a section and of its padded form have the same parents. It gives how many of these are entries.
pub fn padded_parents(case: &Case, padded: &Case) -> usize {
    let (own, others) = (parents(case), parents(padded));
    assert!(own == others, "the parents in a padded section are others");
    own.iter().filter(|parent| parent.starts_with("entry")).count()
}

/// The parent of each entry of a valid section's names: the tag and the DIE offset of its entry, no parent, or not known.
fn parents(case: &Case) -> Vec<String> {
    let memory = Memory::of(case);
    let mut parents = Vec::new();
    for header in DebugNames::from(memory.lend().names).headers() {
        let index = header.and_then(|header| header.index()).unwrap();
        for entry in index.names().flat_map(|name| index.name_entries(name).unwrap()) {
            parents.push(match entry.and_then(|entry| entry.parent()).unwrap() {
                Some(Some(offset)) => {
                    let parent = index.name_entry(offset).unwrap();
                    format!("entry {:?} {:?}", parent.tag, parent.die_offset())
                }
                Some(None) => "none".to_string(),
                None => "-".to_string(),
            });
        }
    }
    parents
}

/// The lines of queries and of their records, without the places that a padding moves: those of a record's index and entry, and that of
/// a refusal 1.
fn queries_without_places(case: &Case) -> Vec<String> {
    let text = answers::text(case);
    let without = |line: &str| {
        let mut words: Vec<&str> = line.split(' ').collect();
        match words[0] {
            "record" => drop(words.drain(2..4)),
            "query" if words[4..].starts_with(&["refused", "1"]) => words.truncate(6),
            "query" => {}
            _ => return None,
        }
        Some(words.join(" "))
    };
    text.lines().filter_map(without).collect()
}

/// How many entries of a section's names can be read that gimli's own reader does not read, since a number before them or in them is
/// longer than it allows.
pub fn entries_beyond_gimli(case: &Case) -> usize {
    let memory = Memory::of(case);
    let order = match case.order {
        Order::Little => RunTimeEndian::Little,
        Order::Big => RunTimeEndian::Big,
    };
    readable(memory.lend().names) - readable(EndianSlice::new(&case.names, order))
}

fn readable(section: impl Reader) -> usize {
    let mut count = 0;
    for header in DebugNames::from(section).headers() {
        let Ok(index) = header.and_then(|header| header.index()) else {
            continue;
        };
        for series in index.names().filter_map(|name| index.name_entries(name).ok()) {
            count += series.take_while(Result::is_ok).count();
        }
    }
    count
}

/// The sections with each padding have enough entries that gimli's own reader does not read; those of tests/real have parents; and those with
/// damages in padded numbers, whose answers these are, have enough of the refusals that such damages lead to.
pub fn enough_padded(entries: &[usize], parents: usize, damaged: &Answers) {
    assert!(entries.iter().all(|count| *count >= TIMES), "too few entries of padded sections: {entries:?}");
    assert!(parents > 0, "no parents in the padded sections of tests/real");
    for (call, number, count) in padded_refusals(damaged) {
        assert!(count >= TIMES, "{call} is refused {number} {count} times in padded sections");
    }
}

/// How often tables and pools are refused with 7, for a set bit beyond the width, and with 1, for a missing byte.
pub fn padded_refusals(damaged: &Answers) -> [(&'static str, u8, usize); 4] {
    let count = |call: &str, number: u8| damaged.tally.get(&(call.to_string(), number)).copied().unwrap_or(0);
    [("index", 7), ("index", 1), ("next", 7), ("next", 1)].map(|(call, number)| (call, number, count(call, number)))
}
