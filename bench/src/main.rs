//! Times this reader and gimli on the same work, in one process, and writes Markdown tables to standard output.
//!
//!     bench [--quick] [--only INPUT] [NAMES STR]...   each pair of files is one more input, little-endian
//!     bench --profile LINE [--only INPUT] [NAMES STR]...
//!
//! With --profile it does this reader's side of one line of work again and again for some seconds, on the input a or the one named.

// work.rs is compiled twice, over each reader.
#![allow(clippy::duplicate_mod)]

mod clock;
mod input;
mod lines;
mod over_gimli;
mod over_ours;
mod random;
mod report;
mod section;
mod timing;

use input::Input;
use lines::{Line, lines};
use report::Row;
use section::{Sections, Shape};
use std::hint::black_box;
use std::path::Path;
use std::process::exit;
use std::time::{Duration, Instant};
use timing::Plan;

const FULL: Plan = Plan { least: Duration::from_millis(8), rounds: 51 };
const QUICK: Plan = Plan { least: Duration::from_millis(3), rounds: 15 };

/// How long --profile works.
const PROFILE: Duration = Duration::from_secs(10);

/// An index of a compiler: one unit, and its names.
const OF_COMPILER: Shape = Shape { indexes: 412, names: 243, compile_units: 1, local_type_units: 3, foreign_type_units: 2 };
/// An index of a linker: all units in one.
const OF_LINKER: Shape = Shape { indexes: 1, names: 200_000, compile_units: 800, local_type_units: 60, foreign_type_units: 20 };

/// The inputs of which the second is ten times the first.
const PAIRS: [(&str, &str); 2] = [("a/10", "a"), ("b/10", "b")];

fn main() {
    let arguments = Arguments::read();
    let inputs = inputs(&arguments);
    match arguments.profile {
        Some(key) => inputs.iter().take(1).for_each(|input| profile(input, &key)),
        None => compare(&inputs, arguments.plan),
    }
}

/// Times all lines on all inputs.
fn compare(inputs: &[Input], plan: Plan) {
    report::inputs(inputs);
    report::times_head();
    let mut rows = Vec::new();
    for input in inputs {
        for line in lines(input) {
            same_answers(input, &line);
            let row = Row::new(input, &line, timing::time(&line, plan));
            report::times_row(&row);
            rows.push(row);
        }
    }
    report::growth(&rows, &PAIRS);
}

/// Stops where the two sides answer differently.
fn same_answers(input: &Input, line: &Line) {
    let (ours, gimli) = ((line.ours)(), (line.gimli)());
    if ours != gimli {
        stop(&format!("input {}, line {}: the answers differ (sums {ours:x} and {gimli:x} of gimli)", input.key, line.key));
    }
}

/// This reader's side of a line, until the time is over.
fn profile(input: &Input, key: &str) {
    let lines = lines(input);
    let Some(line) = lines.iter().find(|line| line.key == key) else {
        let keys: Vec<&str> = lines.iter().map(|line| line.key).collect();
        stop(&format!("there is no line {key}: the lines are {}", keys.join(" ")));
    };
    let (start, mut runs) = (Instant::now(), 0);
    while start.elapsed() < PROFILE {
        black_box((line.ours)());
        runs += 1;
    }
    let each = start.elapsed().as_nanos() as f64 / (runs * line.count) as f64;
    println!("input {}, line {} ({}): {each:.1} ns per {}", input.key, line.key, line.words, line.per);
}

struct Arguments {
    plan: Plan,
    profile: Option<String>,
    only: Option<String>,
    /// Pairs of files.
    files: Vec<(String, String)>,
}

impl Arguments {
    fn read() -> Arguments {
        let mut arguments = Arguments { plan: FULL, profile: None, only: None, files: Vec::new() };
        let mut words = std::env::args().skip(1);
        let usage = || -> String { stop("usage: bench [--quick] [--only INPUT] [--profile LINE] [NAMES STR]...") };
        while let Some(word) = words.next() {
            match word.as_str() {
                "--quick" => arguments.plan = QUICK,
                "--profile" => arguments.profile = Some(words.next().unwrap_or_else(usage)),
                "--only" => arguments.only = Some(words.next().unwrap_or_else(usage)),
                _ if word.starts_with('-') => drop(usage()),
                _ => arguments.files.push((word, words.next().unwrap_or_else(usage))),
            }
        }
        arguments
    }

    /// Whether an input is wanted: a profile is of one, else all are where none is named.
    fn wants(&self, key: &str) -> bool {
        match (&self.only, &self.profile) {
            (Some(only), _) => only == key,
            (None, Some(_)) => key == "a",
            (None, None) => true,
        }
    }
}

/// The inputs that are wanted.
fn inputs(arguments: &Arguments) -> Vec<Input> {
    let fewer = Shape { indexes: 41, ..OF_COMPILER };
    let shorter = Shape { names: 20_000, ..OF_LINKER };
    let made = [
        ("a", "indexes of one unit each", OF_COMPILER),
        ("a/10", "the same, a tenth of the indexes", fewer),
        ("b", "one index of many units", OF_LINKER),
        ("b/10", "the same, a tenth of the names", shorter),
    ];
    let mut inputs = Vec::new();
    for (key, words, shape) in made.into_iter().filter(|(key, ..)| arguments.wants(key)) {
        inputs.push(input(key, words, section::make(shape, 1)));
    }
    for (names, strings) in &arguments.files {
        let key = Path::new(names).file_stem().unwrap_or_default().to_string_lossy();
        if arguments.wants(&key) {
            inputs.push(input(&key, "two files", Sections { names: read(names), strings: read(strings) }));
        }
    }
    if inputs.is_empty() {
        stop("there is no such input");
    }
    inputs
}

fn input(key: &str, words: &str, sections: Sections) -> Input {
    let input = Input::new(key, words, sections);
    let input = input.unwrap_or_else(|error| stop(&format!("input {key} cannot be read as a little-endian section: {error}")));
    if input.present.is_empty() {
        stop(&format!("input {key} has no names in a hash table"));
    }
    input
}

fn read(file: &str) -> Vec<u8> {
    std::fs::read(file).unwrap_or_else(|error| stop(&format!("{file}: {error}")))
}

fn stop(message: &str) -> ! {
    eprintln!("bench: {message}");
    exit(1)
}
