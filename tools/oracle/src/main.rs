//! An oracle for .debug_names: makes sections, has gimli 0.34.0 answer all calls on each, and writes the sections and the answers.
//!
//!     GIMLI_SRC=FOLDER cargo run --release -- OUTPUT_FOLDER
//!
//! README.md has the whole. What is where: `random`, the random numbers; `bytes`, numbers into bytes; `model`, what a section is
//! made of, and `parsed`, the way back; `valid`, valid sections; `damage`, damaged ones; `fixed`, `entries` and `tables`, sections that are
//! not random; `real`, those of compilers and other producers; `several`, those for the query; `padded`, LEB128 numbers that are padded;
//! `case`, the file of sections; `lent`, the sections as they are lent to gimli, and its errors as refusals; `reader` and `leb128_7_6`, how
//! gimli reads them; `answers`, the calls, `hashes`, those on hash tables, `pool`, those on entries, and `query`, the query; `check`, what
//! must hold of gimli, of the valid and the padded sections and of the whole. The library of this package, src/lib.rs, is gimli with all
//! these modules beside it.

use std::path::Path;

use gimli::answers::{self, Answers, CALLS, REFUSALS};
use gimli::case::{self, Case};
use gimli::damage::{self, Damage, PADDED_DAMAGES, PADDINGS};
use gimli::model::Section;
use gimli::random::Random;
use gimli::{check, entries, fixed, padded, real, several, tables, valid};

const SEED: u64 = 0x0064_6562_7567_0005;

/// Padded sections have a seed of their own.
const PADDED_SEED: u64 = 0x0064_6562_7567_0008;

/// Those of tests/real that stand behind the hash tables are the first of its list. The others stand behind the entries with both attributes of
/// units.
const REAL: usize = 13;

/// How many random sections of each kind: valid ones, and damaged ones for each damage; and valid ones of several indexes for the query,
/// of which there is one for each damage; and of each of these two those with each padding, and each damage of padded numbers.
const VALID: usize = 300;
const EACH_DAMAGE: usize = 56;
const SEVERAL: usize = 30;
const EACH_PADDING: usize = 13;

/// The sections.
struct Made {
    /// In the order of the file.
    cases: Vec<Case>,
    /// How many of them are damaged, and how many of these gimli answers otherwise than the section before the damage.
    damaged: usize,
    otherwise: usize,
    padded: Padded,
}

/// What was met in padded sections.
#[derive(Default)]
struct Padded {
    /// How many random ones there are that are valid; and how many entries, with each padding, gimli's own reader does not read.
    valid: usize,
    entries: [usize; PADDINGS.len()],
    /// How many queries and records are the same as in the section before the padding: in these, and in those of tests/real.
    same: (usize, usize),
    same_real: (usize, usize),
    /// How many parents of entries in those of tests/real are the same entries.
    parents: usize,
    /// The answers to those with a damage.
    damaged: Answers,
}

fn made() -> Made {
    let mut random = Random(SEED);
    let mut made = Made { cases: fixed::cases(), damaged: 0, otherwise: 0, padded: Padded::default() };
    for (whole, cut) in fixed::cuts() {
        made.add_damaged(&whole, cut);
    }
    made.cases.extend(entries::cases());
    made.add_random(&mut random, valid::section, VALID, EACH_DAMAGE);
    made.cases.extend(tables::cases());
    let real = real::cases();
    made.cases.extend_from_slice(&real[..REAL]);
    made.cases.extend(several::cases());
    made.add_random(&mut random, several::section, SEVERAL, 1);
    let mut random = Random(PADDED_SEED);
    for _ in 0..EACH_PADDING {
        made.add_padded(&mut random, valid::section);
        made.add_padded(&mut random, several::section);
    }
    made.cases.extend(several::both_units());
    made.cases.extend_from_slice(&real[REAL..]);
    made.add_padded_real();
    made
}

/// Makes a valid section.
type Maker = fn(&mut Random) -> Section;

impl Made {
    /// Adds random sections: that many valid ones, and that many with each damage.
    fn add_random(&mut self, random: &mut Random, maker: Maker, valid: usize, each_damage: usize) {
        for _ in 0..valid {
            let case = Case::encoded(&maker(random));
            check::valid(&case);
            self.cases.push(case);
        }
        for _ in 0..each_damage {
            for damage in damage::all() {
                let (valid, case) = damaged(random, maker, damage);
                self.add_damaged(&valid, case);
            }
        }
    }

    /// Adds a random section with each padding, and one with each damage of padded numbers.
    fn add_padded(&mut self, random: &mut Random, maker: Maker) {
        for (which, padding) in PADDINGS.into_iter().enumerate() {
            let (valid, case) = damaged(random, maker, padding);
            check::valid(&case);
            add(&mut self.padded.same, check::padded(&valid, &case));
            self.padded.entries[which] += check::entries_beyond_gimli(&case);
            self.padded.valid += 1;
            self.cases.push(case);
        }
        for damage in PADDED_DAMAGES {
            let (valid, case) = damaged(random, maker, damage);
            answers::ask(self.cases.len(), &case, &mut self.padded.damaged);
            self.add_damaged(&valid, case);
        }
    }

    /// Adds those of tests/real that are padded.
    fn add_padded_real(&mut self) {
        for (case, padded) in padded::real_cases() {
            add(&mut self.padded.same_real, check::padded(&case, &padded));
            self.padded.parents += check::padded_parents(&case, &padded);
            self.cases.push(padded);
        }
    }

    /// Adds a section that was made from a valid one by a damage.
    fn add_damaged(&mut self, valid: &Case, case: Case) {
        self.damaged += 1;
        self.otherwise += usize::from(answers::text(valid) != answers::text(&case));
        self.cases.push(case);
    }
}

/// A valid section, and the same with a damage, by which its bytes are other ones.
fn damaged(random: &mut Random, maker: Maker, damage: Damage) -> (Case, Case) {
    loop {
        let section = maker(random);
        let valid = Case::encoded(&section);
        let case = damage(random, section);
        if case.names != valid.names || case.strings != valid.strings {
            return (valid, case);
        }
    }
}

fn add(sum: &mut (usize, usize), (queries, records): (usize, usize)) {
    sum.0 += queries;
    sum.1 += records;
}

fn main() {
    let arguments: Vec<_> = std::env::args_os().skip(1).collect();
    let [folder] = arguments.as_slice() else {
        eprintln!("usage: oracle OUTPUT_FOLDER");
        std::process::exit(2);
    };
    check::case_a();

    let made = made();
    let sections = case::file(&made.cases);
    let mut answers = Answers::default();
    for (number, case) in made.cases.iter().enumerate() {
        answers::ask(number, case, &mut answers);
    }
    answers.totals(made.cases.len());
    report(&made, &sections, &answers);
    check::enough(made.cases.len(), made.otherwise, &answers);
    check::enough_padded(&made.padded.entries, made.padded.parents, &made.padded.damaged);

    let folder = Path::new(folder);
    std::fs::create_dir_all(folder).expect("cannot make the folder");
    std::fs::write(folder.join("sections.bin"), &sections).expect("cannot write sections.bin");
    std::fs::write(folder.join("answers.txt"), &answers.text).expect("cannot write answers.txt");
}

/// What was made: sizes, and how often each call was answered and refused.
fn report(made: &Made, sections: &[u8], answers: &Answers) {
    let longer = made.cases.iter().filter(|case| case.names.len() >= 300).count();
    println!("{} sections, {longer} of 300 bytes or more, {} bytes in the file", made.cases.len(), sections.len());
    println!("{} damaged, {} of them answered otherwise than before the damage", made.damaged, made.otherwise);
    println!("{} lines of answers, {} bytes", answers.text.lines().count(), answers.text.len());
    report_padded(&made.padded);
    for number in REFUSALS {
        println!("refused {number:16} {:6}", answers.refusals(number));
    }
    for call in CALLS {
        let (answered, refused) = answers.of_call(call);
        println!("{call:24} {answered:6} answered {refused:6} refused");
    }
    for (kind, count) in &answers.kinds {
        println!("{kind:24} {count:6}");
    }
}

/// What was met in padded sections.
fn report_padded(padded: &Padded) {
    let Padded { valid, entries: [tables, pools], same, same_real, parents, damaged } = padded;
    println!("{valid} padded, with {tables} entries of padded tables and {pools} of padded pools that gimli's own reader does not read");
    println!("{} queries and {} records on them as before the padding", same.0, same.1);
    println!("{} queries, {} records and {parents} parents on those of tests/real as before the padding", same_real.0, same_real.1);
    for (call, number, count) in check::padded_refusals(damaged) {
        println!("{call} refused {number} {count} times where padded numbers are damaged");
    }
}
