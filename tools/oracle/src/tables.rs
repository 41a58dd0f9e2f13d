//! Sections for the calls on hash tables. They are not random: starts of buckets, runs that end and go on, equal and unequal hashes, and
//! larger tables with something in the wrong place.

use crate::bytes::Order;
use crate::case::Case;
use crate::entries;
use crate::model::{Index, Section};
use crate::valid::sorted_table;

/// A hash table: the starts of its buckets, and the hashes of its names. Without starts it is no table, and there are names all the
/// same.
type Table = (Vec<u32>, Vec<u32>);

/// All of them: each table in both byte orders, in one of them as 64-bit DWARF, in turn the one and the other.
pub fn cases() -> Vec<Case> {
    let mut sections = Vec::new();
    for (number, table) in tables().iter().enumerate() {
        let wide = number % 2 == 1;
        sections.push(section(Order::Little, wide, &[table]));
        sections.push(section(Order::Big, !wide, &[table]));
    }
    sections.extend(several());
    sections.iter().map(Case::encoded).collect()
}

fn tables() -> Vec<Table> {
    [starts(), small(), runs(), hashes(), larger()].concat()
}

fn section(order: Order, wide: bool, tables: &[&Table]) -> Section {
    entries::section(order, tables.iter().map(|table| index(wide, table)).collect())
}

/// An index with a name for each hash, and no entries.
fn index(wide: bool, (starts, hashes): &Table) -> Index {
    Index {
        buckets: starts.clone(),
        hashes: if starts.is_empty() { Vec::new() } else { hashes.clone() },
        ..entries::small(wide, &[], &[], &vec![0; hashes.len()])
    }
}

fn table(starts: &[u32], hashes: &[u32]) -> Table {
    (starts.to_vec(), hashes.to_vec())
}

/// Starts around the number of names, which is 3, and far above it. At 0x4000_0001 the hashes would begin 0 bytes further on if bytes
/// were counted in 32 bits. With the starts 1 and 3 the table is complete.
fn starts() -> Vec<Table> {
    let with = |first, second| table(&[first, second], &[4, 6, 7]);
    let mut tables = vec![with(1, 3), with(4, 4), with(5, u32::MAX)];
    tables.extend([0, 2, 4, 5, u32::MAX].map(|start| with(start, 3)));
    tables.extend([0, 1, 2, 4, 5, 0x4000_0001, u32::MAX].map(|start| with(1, start)));
    tables
}

/// No names, no buckets, one bucket, more buckets than names, and more than are asked for.
fn small() -> Vec<Table> {
    let forty_five = sorted_table(45, vec![44, 89, 3]);
    let mut last_refused = forty_five.clone();
    last_refused.0[44] = 5;
    vec![
        table(&[], &[]),
        table(&[], &[4, 6, 7]),
        table(&[0], &[]),
        table(&[1], &[]),
        table(&[2], &[]),
        table(&[0, 1, 2], &[]),
        table(&[0, 0], &[4, 6, 7]),
        table(&[1], &[9, 9, 2, u32::MAX]),
        table(&[0, 1, 0, 0, 2, 0, 3], &[1, 4, 6]),
        table(&[2, 1, 0, 0, 2, 4, 3], &[1, 4, 6]),
        forty_five,
        last_refused,
    ]
}

/// Runs: long ones, of one name each, out of the order of their buckets, and interrupted by names of another bucket.
fn runs() -> Vec<Table> {
    vec![
        table(&[0, 0, 1, 0], &[2, 6, 10, 6, 2]),
        table(&[1, 2, 3, 4], &[8, 5, 2, 7]),
        table(&[4, 3, 2, 1], &[7, 2, 5, 8]),
        table(&[3, 1], &[5, 7, 4, 6]),
        table(&[3, 5, 1], &[2, 5, 0, 3, 4, 1]),
        table(&[1], &[3, 1, 4, 1, 5, 9, 2, 6, 5]),
        table(&[1], &[7; 7]),
        table(&[1], &[7; 8]),
        table(&[1], &[7; 9]),
        table(&[1, 2], &[2, 3, 4, 6]),
        table(&[1, 2], &[2, 3, 4, 5, 6, 7]),
        table(&[1, 2], &[2, 3, 5, 4]),
        table(&[1, 1], &[3, 2, 4, 5]),
        table(&[3, 2], &[2, 3, 4, 5]),
        table(&[1, 2, 0], &[3, 4, 3, 4, 3]),
    ]
}

/// Hashes that are equal, that differ in one bucket, and that a lookup passes over, also around names of another bucket; the smallest
/// and the largest.
fn hashes() -> Vec<Table> {
    vec![
        table(&[1, 5], &[2, 4, 2, 4, 3, 5, 5, 3]),
        table(&[1, 2], &[2, 3, 2, 2, 3]),
        table(&[1, 3], &[4, 2, 3, 4, 2, 3]),
        table(&[1, 4], &[0, 0, 5380, 5381, 1, 1]),
        table(&[3, 1], &[u32::MAX, u32::MAX, 0, u32::MAX - 1]),
        table(&[1, 0, 0], &[u32::MAX, 0, 3, 6]),
        table(&[1, 3, 0, 4, 0, 5, 0], &[0, 7, 1, u32::MAX, 5381]),
        sorted_table(5, vec![0x8000_0000, 0x7fff_ffff, 0xffff_fffb, 4, 0x0001_0000, 5381, 0x0100_0000]),
    ]
}

/// Twenty-three names in five buckets, and forty-five: complete, and with starts or hashes that are not where they belong.
fn larger() -> Vec<Table> {
    let complete = sorted_table(5, spread(23));
    let with = |change: fn(&mut Table)| {
        let mut table = complete.clone();
        change(&mut table);
        table
    };
    vec![
        complete.clone(),
        with(|(starts, _)| starts.swap(1, 3)),
        with(|(starts, _)| starts[2] += 1),
        with(|(starts, _)| starts[2] -= 1),
        with(|(starts, _)| starts[3] = 0),
        with(|(_, hashes)| hashes.swap(2, 11)),
        with(|(_, hashes)| hashes.reverse()),
        sorted_table(5, spread(45)),
    ]
}

/// Different hashes, all over the range.
fn spread(count: u32) -> Vec<u32> {
    (1..=count).map(|number| number.wrapping_mul(0x9e37_79b1)).collect()
}

/// Sections of several indexes: with and without a table, and a refused one before one that is complete.
fn several() -> Vec<Section> {
    let complete = table(&[1, 3], &[4, 6, 7]);
    let interrupted = table(&[1, 2], &[2, 3, 4, 6]);
    let refused = table(&[1, 5], &[4, 6, 7]);
    let none = table(&[], &[4, 6, 7]);
    vec![
        section(Order::Little, false, &[&none, &complete, &interrupted]),
        section(Order::Big, true, &[&refused, &complete]),
        section(Order::Little, true, &[&interrupted, &refused, &none]),
        section(Order::Big, false, &[&complete, &none, &interrupted]),
    ]
}
