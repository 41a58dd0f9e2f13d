//! The tables, in Markdown.

use crate::input::Input;
use crate::lines::Line;
use crate::timing::Times;

/// The times of one line on one input.
pub struct Row {
    pub input: String,
    pub key: &'static str,
    pub words: &'static str,
    pub per: &'static str,
    pub times: Times,
}

impl Row {
    pub fn new(input: &Input, line: &Line, times: Times) -> Row {
        Row { input: input.key.clone(), key: line.key, words: line.words, per: line.per, times }
    }
}

/// The inputs and what they have.
pub fn inputs(inputs: &[Input]) {
    println!("| input | | bytes of .debug_names, .debug_str | indexes | names | entries |");
    println!("|---|---|---|---|---|---|");
    for input in inputs {
        let Input { key, words, sections, counts, .. } = input;
        let (names, strings) = (sections.names.len(), sections.strings.len());
        println!("| {key} | {words} | {names}, {strings} | {} | {} | {} |", counts.indexes, counts.names, counts.entries);
    }
    println!();
}

/// The head of the table of times. Its rows are written as they are measured.
pub fn times_head() {
    println!("| input | line | work | per | ours ns | gimli ns | ours/gimli | middle half |");
    println!("|---|---|---|---|---:|---:|---:|---|");
}

pub fn times_row(row: &Row) {
    let Row { input, key, words, per, times } = row;
    let Times { ours, gimli, ratio, low, high } = times;
    let (ours, gimli) = (number(*ours), number(*gimli));
    println!("| {input} | {key} | {words} | {per} | {ours} | {gimli} | {ratio:.2} | {low:.2} to {high:.2} |");
}

/// How the times grow from a small input to one that is ten times as large, where both were measured.
pub fn growth(rows: &[Row], pairs: &[(&str, &str)]) {
    let measured = |key: &str| rows.iter().any(|row| row.input == key);
    if !pairs.iter().any(|(small, large)| measured(small) && measured(large)) {
        return;
    }
    println!("\n| inputs | line | work | per | ours small | ours large | growth | gimli small | gimli large | growth |");
    println!("|---|---|---|---|---:|---:|---:|---:|---:|---:|");
    for (small, large) in pairs {
        for after in rows.iter().filter(|row| row.input == *large) {
            if let Some(before) = rows.iter().find(|row| row.input == *small && row.key == after.key) {
                growth_row(before, after);
            }
        }
    }
}

fn growth_row(before: &Row, after: &Row) {
    let (small, large) = (&before.times, &after.times);
    let grown = |small: f64, large: f64| format!("{} | {} | {:.2}", number(small), number(large), large / small);
    println!(
        "| {} to {} | {} | {} | {} | {} | {} |",
        before.input,
        after.input,
        after.key,
        after.words,
        after.per,
        grown(small.ours, large.ours),
        grown(small.gimli, large.gimli)
    );
}

/// Nanoseconds: of small numbers one digit behind the point.
fn number(nanoseconds: f64) -> String {
    if nanoseconds < 100.0 { format!("{nanoseconds:.1}") } else { format!("{nanoseconds:.0}") }
}
