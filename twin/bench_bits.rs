//! Times the proved set of numbers, as the crate bitset_bench exports it, against twin's on the same
//! work: for sparse and dense sets, the best of several runs, with equal checksums.
//!
//! Built with DIR for what is built here and LIBDIR for the directory of libbitset_bench.a:
//!
//!     rustc --edition 2021 -O --crate-type rlib --crate-name twin -o DIR/libtwin.rlib twin/src/lib.rs
//!     rustc --edition 2021 -O --extern twin=DIR/libtwin.rlib -L native=LIBDIR -l static=bitset_bench -o DIR/bench_bits twin/bench_bits.rs

use std::process::ExitCode;
use std::time::Instant;

use twin::bit_work::{ask, drain, sweep};

type Work = extern "C" fn(u64, u64, u64) -> u64;

mod proved {
    unsafe extern "C" {
        pub safe fn bitset_drain(seed: u64, tries: u64, rounds: u64) -> u64;
        pub safe fn bitset_sweep(seed: u64, tries: u64, rounds: u64) -> u64;
        pub safe fn bitset_ask(seed: u64, tries: u64, rounds: u64) -> u64;
    }
}

extern "C" fn proved_drain(seed: u64, tries: u64, rounds: u64) -> u64 {
    proved::bitset_drain(seed, tries, rounds)
}

extern "C" fn proved_sweep(seed: u64, tries: u64, rounds: u64) -> u64 {
    proved::bitset_sweep(seed, tries, rounds)
}

extern "C" fn proved_ask(seed: u64, tries: u64, rounds: u64) -> u64 {
    proved::bitset_ask(seed, tries, rounds)
}

const SEED: u64 = 20_240_229;
const RUNS: usize = 9;

/// The checksum, and the time in milliseconds.
fn timed(work: Work, tries: u64, rounds: u64) -> (u64, f64) {
    let start = Instant::now();
    let sum = work(SEED, tries, rounds);
    (sum, start.elapsed().as_secs_f64() * 1e3)
}

/// As many rounds as take at least 120 milliseconds in twin.
fn rounds_for(work: Work, tries: u64) -> u64 {
    let mut rounds = 16;
    while timed(work, tries, rounds).1 < 120.0 {
        rounds *= 2;
    }
    rounds
}

fn compare(name: &str, tries: u64, plain: Work, proved: Work) -> bool {
    let rounds = rounds_for(plain, tries);
    let (mut best_plain, mut best_proved) = (f64::MAX, f64::MAX);
    let mut equal = true;
    for _ in 0..RUNS {
        let (a, t) = timed(plain, tries, rounds);
        let (b, u) = timed(proved, tries, rounds);
        equal &= a == b;
        best_plain = best_plain.min(t);
        best_proved = best_proved.min(u);
    }
    let ratio = best_proved / best_plain;
    let checksums = if equal { "equal" } else { "DIFFER" };
    println!("{name:<20} {tries:>6} inserts  twin {best_plain:8.1} ms  proved {best_proved:8.1} ms  ratio {ratio:5.2}  checksums {checksums}");
    equal
}

fn main() -> ExitCode {
    let mut equal = true;
    for tries in [40, 1_000, 22_000] {
        equal &= compare("first and remove", tries, drain, proved_drain);
        equal &= compare("count and remove_range", tries, sweep, proved_sweep);
        equal &= compare("contains and clear", tries, ask, proved_ask);
    }
    if equal {
        ExitCode::SUCCESS
    } else {
        ExitCode::FAILURE
    }
}
