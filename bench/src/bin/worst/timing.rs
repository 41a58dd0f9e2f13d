//! The time of a call: the best of three rounds. Between the rounds other calls are timed, so that what else the machine does seldom
//! disturbs all three.

use crate::calls::Work;
use crate::clock;
use std::hint::black_box;

pub const ROUNDS: usize = 3;

/// A short call is made again and again: a measurement takes at least so many nanoseconds, and a round has as many of them as fit into this time.
const LEAST: f64 = 4e6;
const ROUND: f64 = 1e8;
/// A call that is expected to take longer than this is not made.
const MOST: f64 = 20e9;

/// What is known of the time of a call, in nanoseconds.
#[derive(Clone, Copy, PartialEq)]
pub enum Time {
    Took(f64),
    /// The call is refused.
    Refused,
    /// It would take too long.
    NotRun,
}
use Time::*;

impl Time {
    /// What is expected where the time grows so many times.
    pub fn grown(self, growth: f64) -> Time {
        match self {
            Took(time) => Took(time * growth),
            other => other,
        }
    }
}

/// A call, with its time and its answer so far.
pub struct Timed<'a> {
    work: Work<'a>,
    pub time: Time,
    pub answer: Option<u64>,
}

impl<'a> Timed<'a> {
    /// The call is made once, unless it is expected to take too long.
    pub fn new(work: Work<'a>, expected: Time) -> Timed<'a> {
        let (time, answer) = match expected {
            NotRun => (NotRun, None),
            Took(time) if time > MOST => (NotRun, None),
            _ => match run(&work, 1) {
                (_, None) => (Refused, None),
                (time, answer) => (Took(time), answer),
            },
        };
        Timed { work, time, answer }
    }

    /// One more round. A call that takes long was timed by `new` for the first.
    pub fn round(&mut self, first: bool) {
        let Took(mut best) = self.time else {
            return;
        };
        if first && best > ROUND {
            return;
        }
        let repeats = (LEAST / best.max(1.0)).ceil() as u32;
        let mut spent = 0.0;
        while spent < ROUND {
            let (time, _) = run(&self.work, repeats);
            best = best.min(time);
            spent += time * f64::from(repeats);
        }
        self.time = Took(best);
    }
}

/// The nanoseconds of a call that is made so many times, and the last answer.
fn run(work: &Work, repeats: u32) -> (f64, Option<u64>) {
    let mut answer = None;
    let start = clock::nanoseconds();
    for _ in 0..repeats {
        answer = black_box(work());
    }
    ((clock::nanoseconds() - start) as f64 / f64::from(repeats), answer)
}
