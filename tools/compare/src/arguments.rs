//! The words of the command: `[--seed N] [--only K] [COUNT]`.

use std::time::{SystemTime, UNIX_EPOCH};

/// So many sections are compared where nothing else is said.
const SECTIONS: u64 = 100_000;

pub struct Arguments {
    pub seed: u64,
    /// The one section to compare.
    pub only: Option<u64>,
    pub count: u64,
}

impl Arguments {
    /// Ends the program where the words are others.
    pub fn read() -> Arguments {
        let mut arguments = Arguments { seed: clock(), only: None, count: SECTIONS };
        let mut words = std::env::args().skip(1);
        while let Some(word) = words.next() {
            match word.as_str() {
                "--seed" => arguments.seed = number(words.next()),
                "--only" => arguments.only = Some(number(words.next())),
                _ => arguments.count = number(Some(word)),
            }
        }
        arguments
    }

    /// The numbers of the sections to compare.
    pub fn numbers(&self) -> std::ops::Range<u64> {
        match self.only {
            Some(number) => number..number + 1,
            None => 0..self.count,
        }
    }
}

/// Another seed in each run.
fn clock() -> u64 {
    SystemTime::now().duration_since(UNIX_EPOCH).map_or(1, |time| time.as_secs())
}

fn number(word: Option<String>) -> u64 {
    word.and_then(|word| word.parse().ok()).unwrap_or_else(|| {
        eprintln!("usage: tools/compare/run [--seed N] [--only K] [COUNT]");
        std::process::exit(2);
    })
}
