//! Times this reader and gimli on sections that make a call slow, in one process, and writes a Markdown table for each:
//! docs/WORST_CASES.md has them.
//!
//!     worst [NUMBER]...   the tables of these numbers alone

// work.rs is compiled twice, over each reader.
#![allow(clippy::duplicate_mod)]

mod calls;
#[path = "../../clock.rs"]
mod clock;
mod input;
// Not all of the work that `bench` times is timed here.
#[allow(dead_code)]
#[path = "../../over_gimli.rs"]
mod over_gimli;
#[path = "../../over_ours.rs"]
mod over_ours;
mod timing;

use calls::Sides;
use input::Input;
use std::process::exit;
use timing::{Time, Timed};

/// The sizes of an input that a call is timed on, beside their halves, and how many times its time grows, at most, where the size doubles.
struct Sizes {
    sizes: &'static [usize],
    growth: f64,
}

const KB: usize = 1024;
const MB: usize = 1024 * KB;
const LINEAR: Sizes = Sizes { sizes: &[64 * KB, MB], growth: 2.0 };
const SQUARE: Sizes = Sizes { sizes: &[16 * KB, 32 * KB, 64 * KB], growth: 4.0 };
/// For a call that is lent more than a gigabyte at 64 KB.
const SMALL_SQUARE: Sizes = Sizes { sizes: &[8 * KB, 16 * KB], growth: 4.0 };
const CUBE: Sizes = Sizes { sizes: &[2 * KB, 4 * KB, 8 * KB], growth: 8.0 };

/// A call that is timed, and the input that it is timed on.
struct Line {
    words: &'static str,
    sizes: Sizes,
    input: fn(usize) -> Input,
    call: for<'a> fn(&'a Input) -> Sides<'a>,
}

/// The lines of a section of docs/WORST_CASES.md.
struct Table {
    words: &'static str,
    lines: Vec<Line>,
}

fn line(words: &'static str, sizes: Sizes, input: fn(usize) -> Input, call: for<'a> fn(&'a Input) -> Sides<'a>) -> Line {
    Line { words, sizes, input, call }
}

fn tables() -> [Table; 7] {
    [
        Table {
            words: "Names that share one series",
            lines: vec![
                line("query", SQUARE, input::shared_series, calls::query),
                line("query, with a record for each entry", SMALL_SQUARE, input::shared_series, calls::query_with_all),
                line("all entries by next_entry", SQUARE, input::shared_series, calls::entries),
            ],
        },
        Table {
            words: "A large abbreviation table and a long series",
            lines: vec![
                line("a long declaration before: query", SQUARE, |size| input::halves(size, input::long_before), calls::query),
                line("many declarations before: query", SQUARE, |size| input::halves(size, input::many_before), calls::query),
                line("a long declaration in use: query", SQUARE, |size| input::halves(size, input::long_in_use), calls::query),
            ],
        },
        Table {
            words: "Both together",
            lines: vec![
                line("a long declaration before: query", CUBE, |size| input::thirds(size, input::long_before), calls::query),
                line("many declarations before: query", CUBE, |size| input::thirds(size, input::many_before), calls::query),
                line("a long declaration in use: query", CUBE, |size| input::thirds(size, input::long_in_use), calls::query),
            ],
        },
        Table {
            words: "Long strings",
            lines: vec![
                line("no hash table: query", SQUARE, |size| input::long_string(size, input::names_alone), calls::query_alone),
                line("names of one hash: query", SQUARE, |size| input::long_string(size, input::names_of_one_hash), calls::query),
            ],
        },
        Table {
            words: "Padded numbers",
            lines: vec![
                line("a padded tag, and a long series: query", SQUARE, |size| input::halves(size, input::padded_tag), calls::query),
                line("a padded code, and names that share it: query", SQUARE, input::padded_code, calls::query),
            ],
        },
        Table {
            words: "One bucket",
            lines: vec![line("find_by_hash for each name's hash", SQUARE, input::names_of_one_bucket, calls::lookups)],
        },
        Table {
            words: "What is linear",
            lines: vec![
                line("next_header: all headers", LINEAR, input::headers, calls::headers),
                line("query: headers alone", LINEAR, input::headers, calls::query_alone),
                line("open: many declarations", LINEAR, |size| input::table(size, input::many_before), calls::open),
                line("open: a long declaration", LINEAR, |size| input::table(size, input::long_in_use), calls::open),
                line("check_table: complete", LINEAR, input::complete_table, calls::check),
                line("check_table: all names missed", LINEAR, input::lost_table, calls::check),
                line("find_by_hash with its steps: one bucket", LINEAR, input::names_of_one_bucket, calls::lookup),
                line("find_by_bucket with its steps: one bucket", LINEAR, input::names_of_one_bucket, calls::bucket),
                line("name_string: one string", LINEAR, |size| input::long_string(size, input::names_alone), calls::name_string),
                line("next_entry: many declarations before", LINEAR, |size| input::table(size, input::many_before), calls::next_entry),
                line("next_entry: a long declaration in use", LINEAR, |size| input::table(size, input::long_in_use), calls::next_entry),
                line("next_entry: a padded code", LINEAR, input::padded_code, calls::next_entry),
            ],
        },
    ]
}

fn main() {
    let wanted: Vec<String> = std::env::args().skip(1).collect();
    for (number, table) in tables().iter().enumerate() {
        let number = (number + 1).to_string();
        if wanted.is_empty() || wanted.contains(&number) {
            println!("{number}. {}\n", table.words);
            print(table);
        }
    }
}

fn print(table: &Table) {
    println!("| call | size | ours | gimli | ours/gimli | ours at half the size | growth | gimli's growth |");
    println!("|---|---:|---:|---:|---:|---:|---:|---:|");
    for (line, times) in table.lines.iter().zip(measure(&table.lines)) {
        let at = |size| times.iter().find(|times| times.size == size).expect("each size is measured");
        line.sizes.sizes.iter().for_each(|size| println!("{}", row(line, at(size / 2), at(*size))));
    }
    println!();
}

/// The times of a line at a size.
struct Times {
    size: usize,
    ours: Time,
    gimli: Time,
}

/// The times of each line at its sizes and their halves.
fn measure(lines: &[Line]) -> Vec<Vec<Times>> {
    let inputs: Vec<Vec<(usize, Input)>> = lines.iter().map(inputs).collect();
    let mut timed: Vec<Vec<(Timed, Timed)>> = lines.iter().zip(&inputs).map(|(line, inputs)| begin(line, inputs)).collect();
    for round in 0..timing::ROUNDS {
        for (ours, gimli) in timed.iter_mut().flatten() {
            ours.round(round == 0);
            gimli.round(round == 0);
        }
    }
    let times = |((size, _), (ours, gimli)): (&(usize, Input), &(Timed, Timed))| Times { size: *size, ours: ours.time, gimli: gimli.time };
    inputs.iter().zip(&timed).map(|(inputs, timed)| inputs.iter().zip(timed).map(times).collect()).collect()
}

/// The inputs of a line with their sizes, the smallest first.
fn inputs(line: &Line) -> Vec<(usize, Input)> {
    let mut sizes: Vec<usize> = line.sizes.sizes.iter().flat_map(|size| [size / 2, *size]).collect();
    sizes.dedup();
    sizes.into_iter().map(|size| (size, (line.input)(size))).collect()
}

/// Makes the calls of a line once. Stops where the two sides answer differently.
fn begin<'a>(line: &Line, inputs: &'a [(usize, Input)]) -> Vec<(Timed<'a>, Timed<'a>)> {
    let mut timed: Vec<(Timed, Timed)> = Vec::new();
    for (number, (size, input)) in inputs.iter().enumerate() {
        let sides = (line.call)(input);
        let (mut ours, mut gimli) = (Time::Took(0.0), Time::Took(0.0));
        if let Some((before_ours, before_gimli)) = timed.last() {
            let growth = line.sizes.growth.powf((*size as f64 / inputs[number - 1].0 as f64).log2());
            (ours, gimli) = (before_ours.time.grown(growth), before_gimli.time.grown(growth));
        }
        let sides = (Timed::new(sides.ours, ours), Timed::new(sides.gimli, gimli));
        same_answers(line, &sides.0, &sides.1);
        timed.push(sides);
    }
    timed
}

fn same_answers(line: &Line, ours: &Timed, gimli: &Timed) {
    if let (Some(ours), Some(gimli)) = (ours.answer, gimli.answer)
        && ours != gimli
    {
        eprintln!("worst: {}: the answers differ ({ours} and {gimli} of gimli)", line.words);
        exit(1);
    }
}

fn row(line: &Line, half: &Times, whole: &Times) -> String {
    let cells = [
        line.words.to_string(),
        if whole.size < MB { format!("{} KB", whole.size / KB) } else { format!("{} MB", whole.size / MB) },
        time(whole.ours),
        time(whole.gimli),
        ratio(whole.ours, whole.gimli),
        time(half.ours),
        ratio(whole.ours, half.ours),
        ratio(whole.gimli, half.gimli),
    ];
    format!("| {} |", cells.join(" | "))
}

fn time(time: Time) -> String {
    match time {
        Time::Took(time) => {
            let units = [("ns", 1.0), ("µs", 1e3), ("ms", 1e6), ("s", 1e9)];
            let (unit, one) = units.into_iter().rev().find(|(_, one)| time >= *one).unwrap_or(units[0]);
            format!("{} {unit}", number(time / one))
        }
        Time::Refused => "refused".to_string(),
        Time::NotRun => "not run".to_string(),
    }
}

fn ratio(time: Time, other: Time) -> String {
    match (time, other) {
        (Time::Took(time), Time::Took(other)) => number(time / other),
        _ => String::new(),
    }
}

/// Two digits or more.
fn number(number: f64) -> String {
    if number < 9.95 { format!("{number:.1}") } else { format!("{number:.0}") }
}
