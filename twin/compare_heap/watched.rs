//! Compares the checksums of the library's `heap_watch` with twin's, after each call of a life.

use std::error::Error;

use twin::lists::{equal, first_difference, List};
use twin::lives::{Life, Scope};
use twin::random::Random;
use twin::watch::watch;

use crate::{equal_stores, numbered, words_of_calls, Difference, UNKNOWN_SIGNS};

unsafe extern "C" {
    fn heap_watch(
        layout: u32,
        calls: *const u32,
        calls_len: usize,
        words: *mut u32,
        words_len: usize,
        sums: *mut u32,
        sums_len: usize,
    ) -> u64;
}

/// What a run works on.
#[derive(Clone, PartialEq, Eq)]
struct Lists {
    calls: List,
    words: List,
    sums: List,
}

impl Lists {
    /// The lists for a life, sometimes with too few places for checksums.
    fn new(random: &mut Random, life: &Life) -> Self {
        let calls = words_of_calls(random, life);
        let whole = life.calls.len();
        let sums = match random.below(8) {
            0 => random.between(0, whole),
            1 => whole,
            _ => whole + random.below(9),
        };
        Lists {
            calls: List::new(random, &calls),
            words: List::new(random, &life.words),
            sums: List::any(random, sums),
        }
    }

    /// Lets the library run the calls.
    fn run_library(&mut self, sign: u32) -> u64 {
        let calls = self.calls.words();
        let words = self.words.words_mut();
        let sums = self.sums.words_mut();
        // SAFETY: pointers and lengths are those of three slices that do not overlap; the library
        // only reads the first.
        unsafe {
            heap_watch(
                sign,
                calls.as_ptr(),
                calls.len(),
                words.as_mut_ptr(),
                words.len(),
                sums.as_mut_ptr(),
                sums.len(),
            )
        }
    }
}

/// Compares the checksums of a life, its words and its margins; answers how many calls were run.
fn compare_life(life: &Life) -> Result<usize, Difference> {
    let mut random = Random::new(!life.seed);
    let before = Lists::new(&mut random, life);
    let unknown_sign = random.pick(&UNKNOWN_SIGNS);
    let mut library = before.clone();
    if library.run_library(unknown_sign) != 0 || library != before {
        let text = "the library watches calls or alters its lists".to_string();
        return Err(Difference::of(life, unknown_sign, text));
    }
    let library_run = library.run_library(life.sign);
    let mut twin = before.clone();
    let (calls, words) = (before.calls.words(), twin.words.words_mut());
    let watched = watch(life.sign, calls, words, twin.sums.words_mut());
    let compared = || -> Result<(), String> {
        let (of_library, of_twin) = (library.sums.words(), twin.sums.words());
        let end = watched.run;
        if let Some(number) = first_difference(&of_library[..end], &of_twin[..end]) {
            let (one, other) = (of_library[number], of_twin[number]);
            let call = numbered(calls, number);
            return Err(format!(
                "checksum after {call}: library {one}, twin {other}"
            ));
        }
        if library_run != end as u64 {
            return Err(format!("calls watched: library {library_run}, twin {end}"));
        }
        equal(
            "the checksums",
            &library.sums,
            &twin.sums,
            twin.sums.whole(),
        )?;
        equal(
            "the calls",
            &library.calls,
            &before.calls,
            before.calls.whole(),
        )?;
        equal_stores(&library.words, &twin.words, &before.words, &watched.fills)
    };
    compared().map_err(|text| Difference::of(life, life.sign, text))?;
    Ok(watched.run)
}

/// Compares checksums after each call of lives and answers the line about them.
pub fn compare(lives: u64, seed: u64) -> Result<String, Box<dyn Error>> {
    let mut count = 0;
    for number in 0..lives {
        let life = Life::new(seed.wrapping_add(number), Scope::Steps);
        count += compare_life(&life)?;
    }
    Ok(format!(
        "compare_heap: tables after each call of {lives} lives, {count} calls, no difference"
    ))
}
