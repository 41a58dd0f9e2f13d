//! Says which section it was where the library ends the program by a signal, or does not answer in time.

use std::sync::atomic::{AtomicU64, Ordering::Relaxed};

/// A section is given so many seconds.
const SECONDS: u32 = 60;

/// The signals of Linux: ILL, ABRT, BUS, FPE, SEGV and ALRM.
const SIGNALS: [i32; 6] = [4, 6, 7, 8, 11, 14];

/// No section yet: what is compared first are those of `limits`.
const NONE: u64 = u64::MAX;

static SEED: AtomicU64 = AtomicU64::new(0);
static NUMBER: AtomicU64 = AtomicU64::new(NONE);

unsafe extern "C" {
    fn signal(number: i32, handler: extern "C" fn(i32)) -> usize;
    fn alarm(seconds: u32) -> u32;
    fn _exit(code: i32) -> !;
}

pub fn start(seed: u64) {
    SEED.store(seed, Relaxed);
    for number in SIGNALS {
        unsafe { signal(number, stopped) };
    }
    unsafe { alarm(SECONDS) };
}

/// The section with that number comes next.
pub fn section(number: u64) {
    NUMBER.store(number, Relaxed);
    unsafe { alarm(SECONDS) };
}

extern "C" fn stopped(signal: i32) {
    let (seed, number) = (SEED.load(Relaxed), NUMBER.load(Relaxed));
    match signal {
        14 => println!("STOPPED: no answer in {SECONDS} seconds"),
        _ => println!("STOPPED by signal {signal}"),
    }
    match number {
        NONE => println!("before the first section, at the limit of length"),
        _ => println!("at section {number} of seed {seed}; to save it: tools/compare/run --seed {seed} --only {number}"),
    }
    unsafe { _exit(1) }
}
