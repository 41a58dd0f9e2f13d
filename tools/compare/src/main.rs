//! Compares libdebug_names.a with gimli 0.34.0, both linked into this program: every call, on generated and damaged sections.
//!
//!     tools/compare/run [--seed N] [--only K] [COUNT]
//!
//! README.md has the whole. What is where: `arguments`, the words of the command; `sections`, section K of a seed; `ffi`, the functions of
//! the library, `numbers`, the types of the numbers that they take, and `ours`, these functions on a lent section; `twin`, gimli on an index,
//! with its answers in the form of ours; `layout`, where the parts of an index lie and whether it fits; `handles`, handles with wrong numbers;
//! `copy`, a section made for any handle, so that gimli can read it; `desk`, where two answers are compared; `name`, the files of a section
//! that is saved; `watch`, for a library that crashes or hangs; `tally`, what was met. The calls: `headers`, `indexes`, `units`, `names`,
//! `hashes`, `entries` and `query`; `misfits`, those on handles that do not fit; `limits`, those on sections that are too long.

mod arguments;
mod copy;
mod desk;
mod entries;
#[path = "../../../bindings/rust/src/ffi.rs"]
mod ffi;
mod handles;
mod hashes;
mod headers;
mod indexes;
mod layout;
mod limits;
mod misfits;
mod name;
mod names;
// Two of its types no call takes: an offset in .debug_info and a type signature are only answered, as a `value`.
#[allow(dead_code)]
#[path = "../../../bindings/rust/src/numbers.rs"]
mod numbers;
mod ours;
mod query;
mod sections;
mod tally;
mod twin;
mod units;
mod watch;

use std::process::exit;

use arguments::Arguments;
use desk::Desk;
use gimli::case::Case;
use gimli::check;
use gimli::lent::Memory;
use gimli::random::Random;
use name::Name;
use sections::Sections;
use tally::Tally;

/// A progress line stands behind so many sections.
const PROGRESS: u64 = 10_000;

/// A run of so many sections must meet everything.
const WHOLE: u64 = 100_000;

fn main() {
    let arguments = Arguments::read();
    println!("seed {}", arguments.seed);
    watch::start(arguments.seed);
    let sections = Sections::new();
    let mut tally = Tally::default();
    limits::too_long(&mut tally);
    for number in arguments.numbers() {
        watch::section(number);
        let (case, random) = sections.section(arguments.seed, number);
        let name = Name::Made { seed: arguments.seed, number };
        if arguments.only.is_some() {
            name.save(&case);
        }
        compare(name, &case, random, &mut tally);
        if (number + 1) % PROGRESS == 0 {
            println!("{} sections, {} calls", number + 1, tally.calls());
        }
    }
    tally.report();
    if !tally.missing().is_empty() && arguments.only.is_none() {
        println!("never met: {}", tally.missing().join(", "));
        if arguments.count >= WHOLE {
            exit(1);
        }
    }
}

/// All calls on a section.
fn compare(name: Name, case: &Case, random: Random, tally: &mut Tally) {
    let memory = Memory::of(case);
    let mut desk = Desk::new(name, case, &memory, random, tally);
    headers::headers(&mut desk);
    headers::cursors(&mut desk);
    names::strings(&mut desk);
    query::queries(&mut desk);
    desk.nothing_changed();
    desk.tally.sections += 1;
    if check::entries_beyond_gimli(case) > 0 {
        desk.tally.other("entries behind numbers longer than gimli's");
    }
}
