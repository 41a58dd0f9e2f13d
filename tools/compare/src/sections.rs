//! Section K of a seed: valid ones, padded and damaged ones, those of the oracle that are not random, and any of them with bytes changed.

use crate::desk::other;
use gimli::case::Case;
use gimli::damage::{self, Damage, PADDED_DAMAGES, PADDINGS};
use gimli::model::{Index, Section};
use gimli::random::Random;
use gimli::{entries, fixed, padded, real, several, tables, valid};

pub struct Sections {
    /// The paddings of numbers among them.
    damages: Vec<Damage>,
    /// Those that are not random.
    fixed: Vec<Case>,
}

impl Sections {
    pub fn new() -> Sections {
        let cuts = fixed::cuts().into_iter().map(|(_, cut)| cut).collect();
        let padded = padded::real_cases().into_iter().map(|(_, padded)| padded).collect();
        let fixed =
            [fixed::cases(), cuts, entries::cases(), tables::cases(), several::cases(), several::both_units(), real::cases(), padded];
        let damages = damage::all().chain(PADDINGS).chain(PADDED_DAMAGES).collect();
        Sections { damages, fixed: fixed.concat() }
    }

    /// A section depends on the seed and its number alone. The random numbers behind it are for the choice of the calls.
    pub fn section(&self, seed: u64, number: u64) -> (Case, Random) {
        let mut random = Random(seed);
        random = Random(random.next() ^ number);
        random = Random(random.next());
        let mut case = self.made(&mut random);
        if random.once_in(8) {
            change(&mut random, &mut case.names);
        }
        if random.once_in(24) {
            change(&mut random, &mut case.strings);
        }
        if random.once_in(32) {
            case.order = other(case.order);
        }
        (case, random)
    }

    fn made(&self, random: &mut Random) -> Case {
        match random.below(16) {
            0 => random.pick(&self.fixed),
            1..=4 => self.perhaps_damaged(random, several::section),
            5 => self.perhaps_damaged(random, joined),
            6 => self.perhaps_damaged(random, stretched),
            _ => self.perhaps_damaged(random, valid::section),
        }
    }

    /// A valid section, or one with a damage.
    fn perhaps_damaged(&self, random: &mut Random, maker: fn(&mut Random) -> Section) -> Case {
        let section = maker(random);
        match random.once_in(3) {
            true => Case::encoded(&section),
            false => random.pick(&self.damages)(random, section),
        }
    }
}

/// The indexes of two or three sections in one: their names are strings of the first, or none.
fn joined(random: &mut Random) -> Section {
    let mut section = valid::section(random);
    for _ in 0..random.between(1, 2) {
        section.indexes.extend(several::section(random).indexes);
    }
    section
}

/// Indexes with many names.
fn stretched(random: &mut Random) -> Section {
    let mut section = valid::section(random);
    for index in &mut section.indexes {
        stretch(random, index);
    }
    section
}

/// Each name of an index stands several times, with other hashes in more buckets.
fn stretch(random: &mut Random, index: &mut Index) {
    let times = random.between(2, 30);
    index.string_offsets = index.string_offsets.repeat(times);
    index.entry_offsets = index.entry_offsets.repeat(times);
    if !index.buckets.is_empty() {
        let modulus = random.pick(&[7, 50, u32::MAX]);
        let hashes = index.string_offsets.iter().map(|_| random.next() as u32 % modulus).collect();
        (index.buckets, index.hashes) = valid::sorted_table(random.between(1, 40) as u32, hashes);
    }
}

/// Changes one to three bytes, or leaves out or puts in some.
fn change(random: &mut Random, bytes: &mut Vec<u8>) {
    for _ in 0..random.between(1, 3) {
        if bytes.is_empty() {
            return;
        }
        let place = random.below(bytes.len());
        match random.below(8) {
            0 => drop(bytes.remove(place)),
            1 => bytes.insert(place, random.byte()),
            2 => bytes[place] = random.pick(&[0, 1, 2, 0x7f, 0x80, 0xff]),
            3 => bytes[place] ^= 1 << random.below(8),
            _ => bytes[place] = random.byte(),
        }
    }
}
