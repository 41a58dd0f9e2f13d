//! What was met: how often each call gave each kind of answer and each refusal.

use std::collections::BTreeMap;
use std::ops::RangeInclusive;

use crate::ffi::*;

/// The calls, each with its name in the report and the kinds of answers that a long run must meet.
macro_rules! calls {
    ($($call:ident $name:literal [$($kind:literal)*])+) => {
        #[derive(Clone, Copy)]
        pub enum Call { $($call),+ }

        const CALLS: &[(&str, &[usize])] = &[$(($name, &[$($kind),*])),+];

        impl Call {
            pub fn name(self) -> &'static str {
                CALLS[self as usize].0
            }
        }
    };
}

calls! {
    NextHeader "next_header" [0 1]
    HeaderAt "header_at" [0 1]
    Open "open" [1]
    CompileUnitCount "compile_unit_count" [1]
    LocalTypeUnitCount "local_type_unit_count" [1]
    ForeignTypeUnitCount "foreign_type_unit_count" [1]
    TypeUnitCount "type_unit_count" [1]
    BucketCount "bucket_count" [1]
    NameCount "name_count" [1]
    HasHashTable "has_hash_table" [1]
    CompileUnit "compile_unit" [1]
    LocalTypeUnit "local_type_unit" [2]
    ForeignTypeUnit "foreign_type_unit" [3]
    TypeUnit "type_unit" [2 3]
    DefaultCompileUnit "default_compile_unit" [0 1]
    NameStringOffset "name_string_offset" [1]
    NameString "name_string" [1]
    GetStr "get_str" [1]
    FindByBucket "find_by_bucket" [0 1]
    NextInBucket "next_in_bucket" [0 1]
    FindByHash "find_by_hash" [1]
    NextByHash "next_by_hash" [0 1]
    CheckTable "check_table" [0 1 2]
    NameEntries "name_entries" [1]
    NextEntry "next_entry" [0 1]
    NameEntry "name_entry" [1]
    Query "query" [1]
    EntryCompileUnit "- compile_unit" [0 1]
    EntryTypeUnit "- type_unit" [0 2 3]
    EntryDieOffset "- die_offset" [0 1]
    EntryParent "- parent" [0 1 2]
    EntryTypeHash "- type_hash" [0 1]
}

/// What else a long run must meet.
pub const ELSE: [&str; 16] = [
    "query: total 0",
    "query: total within the records lent",
    "query: total above the records lent",
    "query: no records lent",
    "query: refused",
    "query: a type unit beside a compile unit",
    "record: no unit",
    "record: a compile unit",
    "record: a local type unit",
    "record: a foreign type unit",
    "record: no DIE offset",
    "record: a DIE offset",
    "a step after an end gives a name",
    "a lost name not of the lowest bucket",
    "a table that was never read whole",
    "entries behind numbers longer than gimli's",
];

/// The refusals; 13 is for what is too long.
const REFUSALS: RangeInclusive<usize> = 1..=14;

/// What is counted of one call.
#[derive(Clone, Default)]
struct Met {
    /// Answers by kind.
    kinds: [u64; 4],
    /// Refusals by number.
    refused: [u64; 15],
}

pub struct Tally {
    pub sections: u64,
    met: Vec<Met>,
    calls: u64,
    other: BTreeMap<&'static str, u64>,
}

impl Default for Tally {
    fn default() -> Tally {
        Tally { sections: 0, met: vec![Met::default(); CALLS.len()], calls: 0, other: BTreeMap::new() }
    }
}

impl Tally {
    pub fn calls(&self) -> u64 {
        self.calls
    }

    pub fn count(&mut self, call: Call, answer: &impl Told) {
        self.calls += 1;
        self.answer(call, answer.answer());
        if let Some(facts) = answer.facts() {
            self.answer(Call::EntryCompileUnit, facts.compile_unit);
            self.answer(Call::EntryTypeUnit, facts.type_unit);
            self.answer(Call::EntryDieOffset, facts.die_offset);
            self.answer(Call::EntryParent, facts.parent);
            self.answer(Call::EntryTypeHash, facts.type_hash);
        }
    }

    /// The numbers are those that both sides gave, and gimli's side gives no others.
    fn answer(&mut self, call: Call, answer: Answer) {
        let met = &mut self.met[call as usize];
        match answer.status {
            0 => met.kinds[answer.kind as usize] += 1,
            number => met.refused[number as usize] += 1,
        }
    }

    pub fn other(&mut self, what: &'static str) {
        *self.other.entry(what).or_default() += 1;
    }

    fn refusals(&self, number: usize) -> u64 {
        self.met.iter().map(|met| met.refused[number]).sum()
    }

    /// What a long run must meet and this one did not.
    pub fn missing(&self) -> Vec<String> {
        let numbers = REFUSALS.filter(|number| *number != 13 && self.refusals(*number) == 0);
        let mut missing: Vec<String> = numbers.map(|number| format!("refusal {number}")).collect();
        for ((name, kinds), met) in CALLS.iter().zip(&self.met) {
            missing.extend(kinds.iter().filter(|kind| met.kinds[**kind] == 0).map(|kind| format!("{name} of kind {kind}")));
        }
        missing.extend(ELSE.iter().filter(|what| !self.other.contains_key(*what)).map(|what| what.to_string()));
        missing
    }

    pub fn report(&self) {
        println!("call                         kind 0     kind 1     kind 2     kind 3    refused   (of an entry its five facts, with -)");
        for ((name, _), met) in CALLS.iter().zip(&self.met) {
            let [none, one, two, three] = met.kinds;
            println!("{name:24} {none:10} {one:10} {two:10} {three:10} {:10}", met.refused.iter().sum::<u64>());
        }
        for (what, count) in &self.other {
            println!("{what:40} {count:10}");
        }
        for number in REFUSALS {
            println!("refused {number:2} {:12}", self.refusals(number));
        }
        println!("{} sections, {} calls compared, no difference", self.sections, self.calls);
    }
}

/// An answer of any call, as far as it is counted.
pub trait Told {
    fn answer(&self) -> Answer;

    fn facts(&self) -> Option<&Facts> {
        None
    }
}

macro_rules! told {
    ($($answer:ty)+) => {
        $(impl Told for $answer {
            fn answer(&self) -> Answer {
                Answer { status: self.status, kind: self.kind, value: self.value }
            }
        })+
    };
}

told! { Answer HeaderStep Header Str BucketStep HashStep Table }

impl Told for Entry {
    fn answer(&self) -> Answer {
        Answer { status: self.status, kind: self.kind, value: self.value }
    }

    /// The end of a series has no facts.
    fn facts(&self) -> Option<&Facts> {
        (self.status != 0 || self.kind != 0).then_some(&self.facts)
    }
}
