//! Alternating runs of both sides, and what they say.

use crate::clock;
use crate::lines::{Line, Work};
use std::hint::black_box;
use std::time::Duration;

/// How long a measurement is at least, and how many there are of each side.
#[derive(Clone, Copy)]
pub struct Plan {
    pub least: Duration,
    pub rounds: usize,
}

/// The times of a line: nanoseconds for each of what is counted, as medians; and the ratios, of which each is of one round.
pub struct Times {
    pub ours: f64,
    pub gimli: f64,
    pub ratio: f64,
    /// The first and the third quartile of the ratios.
    pub low: f64,
    pub high: f64,
}

/// Times a line. Which side comes first changes from round to round.
pub fn time(line: &Line, plan: Plan) -> Times {
    let repeat_ours = repeats(&line.ours, plan.least);
    let repeat_gimli = repeats(&line.gimli, plan.least);
    let (mut ours, mut gimli, mut ratios) = (Vec::new(), Vec::new(), Vec::new());
    for round in 0..plan.rounds {
        let (our, other);
        if round % 2 == 0 {
            our = run(&line.ours, repeat_ours);
            other = run(&line.gimli, repeat_gimli);
        } else {
            other = run(&line.gimli, repeat_gimli);
            our = run(&line.ours, repeat_ours);
        }
        ours.push(our / line.count as f64);
        gimli.push(other / line.count as f64);
        ratios.push(our / other);
    }
    Times {
        ours: quantile(&mut ours, 0.5),
        gimli: quantile(&mut gimli, 0.5),
        ratio: quantile(&mut ratios, 0.5),
        low: quantile(&mut ratios, 0.25),
        high: quantile(&mut ratios, 0.75),
    }
}

/// How often the work is repeated so that a measurement is long enough.
fn repeats(work: &Work, least: Duration) -> u32 {
    let once = run(work, 1).max(1.0);
    (least.as_nanos() as f64 / once).ceil().max(1.0) as u32
}

/// The nanoseconds of one run of the work, of so many.
fn run(work: &Work, repeats: u32) -> f64 {
    let start = clock::nanoseconds();
    for _ in 0..repeats {
        black_box(work());
    }
    (clock::nanoseconds() - start) as f64 / f64::from(repeats)
}

fn quantile(values: &mut [f64], part: f64) -> f64 {
    values.sort_by(f64::total_cmp);
    values[((values.len() - 1) as f64 * part).round() as usize]
}
