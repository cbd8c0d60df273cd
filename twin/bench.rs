//! Times the library's `topology_check` against twin's check on the same bytes.
//!
//! Built with DIR for what is built here and LIBDIR for the directory of libhost.a:
//!
//!     rustc --edition 2021 -O --crate-type rlib --crate-name twin -o DIR/libtwin.rlib twin/src/lib.rs
//!     rustc --edition 2021 -O --extern twin=DIR/libtwin.rlib -L native=LIBDIR -l static=host -o DIR/bench twin/bench.rs
//!
//! It prints a line for each size: the bytes of the image, the time that each check takes for a
//! byte, and the time of topology_check divided by that of twin.

use std::hint::black_box;
use std::time::{Duration, Instant};

use twin::campus;
use twin::topocheck;

const SIZES: [usize; 3] = [1_024, 8_192, 65_536];
const SEED: u64 = 1;
const ROUNDS: usize = 5;
const SHORTEST_ROUND: Duration = Duration::from_millis(100);

unsafe extern "C" {
    fn topology_check(bytes: *const u8, len: usize) -> u64;
}

#[inline(never)]
fn library_answer(bytes: &[u8]) -> u64 {
    // SAFETY: the pointer and the length are those of a slice, which the library only reads.
    unsafe { topology_check(bytes.as_ptr(), bytes.len()) }
}

#[inline(never)]
fn twin_answer(bytes: &[u8]) -> u64 {
    topocheck::host_answer(bytes)
}

type Check = fn(&[u8]) -> u64;

/// The time that `repetitions` calls take.
fn round(check: Check, bytes: &[u8], repetitions: u32) -> Duration {
    let start = Instant::now();
    for _ in 0..repetitions {
        black_box(check(black_box(bytes)));
    }
    start.elapsed()
}

/// So many calls that a round is long enough.
fn repetitions(check: Check, bytes: &[u8]) -> u32 {
    let mut repetitions = 1;
    while round(check, bytes, repetitions) < SHORTEST_ROUND * 5 / 4 {
        repetitions *= 2;
    }
    repetitions
}

/// One check with its best time so far.
struct Timing {
    check: Check,
    repetitions: u32,
    best_call: f64,
}

impl Timing {
    fn new(check: Check, bytes: &[u8]) -> Self {
        Timing {
            check,
            repetitions: repetitions(check, bytes),
            best_call: f64::INFINITY,
        }
    }

    fn add_round(&mut self, bytes: &[u8]) {
        let time = round(self.check, bytes, self.repetitions);
        let call = time.as_secs_f64() * 1e9 / f64::from(self.repetitions);
        self.best_call = self.best_call.min(call);
    }

    /// Nanoseconds for a byte.
    fn per_byte(&self, bytes: &[u8]) -> f64 {
        self.best_call / bytes.len() as f64
    }
}

/// Times both checks on one image, round by round in turn.
fn report(bytes: &[u8]) {
    assert_eq!(twin_answer(bytes), 0, "twin refuses the image");
    assert_eq!(library_answer(bytes), 0, "topology_check refuses the image");
    let mut library = Timing::new(library_answer, bytes);
    let mut twin = Timing::new(twin_answer, bytes);
    for _ in 0..ROUNDS {
        library.add_round(bytes);
        twin.add_round(bytes);
    }
    let library = library.per_byte(bytes);
    let twin = twin.per_byte(bytes);
    println!(
        "{:>6} bytes: topology_check {library:.3} ns per byte, twin {twin:.3} ns per byte, \
         ratio {:.2}",
        bytes.len(),
        library / twin
    );
}

fn main() {
    for size in SIZES {
        report(&campus::typical_image(SEED, size));
    }
}
