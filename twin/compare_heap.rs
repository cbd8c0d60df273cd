//! Compares the library's `heap_replay` and `heap_watch` with twin's heap on random lists of calls:
//! the first by answers, words and fills, the second by what the heap knows after each call.
//!
//! Built with DIR for what is built here and LIBDIR for the directory of libreplay.a:
//!
//!     rustc --edition 2021 -O --crate-type rlib --crate-name twin -o DIR/libtwin.rlib twin/src/lib.rs
//!     rustc --edition 2021 -O --extern twin=DIR/libtwin.rlib -L native=LIBDIR -l static=replay -o DIR/compare_heap twin/compare_heap.rs
//!
//! Run as `compare_heap [LIVES] [SEED] [WATCHED]`, by default with 2000 lives for `heap_replay`, a
//! seed of 1, and 300 lives for `heap_watch`. The lives have the seeds from SEED on. The exit status
//! is 0 if there is no difference, 1 if there is one, and 2 if the arguments are wrong.

#[path = "compare_heap/watched.rs"]
mod watched;

use std::collections::BTreeSet;
use std::env;
use std::error::Error;
use std::fmt;
use std::process::ExitCode;

use twin::calls::{self, answer_text, call_text, NAMES};
use twin::heap::{region_count, MOST_REGIONS, REGION};
use twin::lists::{equal, first_difference, List, MARGIN};
use twin::lives::{Life, Scope};
use twin::random::Random;
use twin::replay::replay;

const DEFAULT_LIVES: u64 = 2_000;
const DEFAULT_SEED: u64 = 1;
const DEFAULT_WATCHED: u64 = 300;

/// Codes that no call has.
const UNKNOWN_CODES: [u32; 7] = [12, 1_000, 1 << 8, 1 << 8 | 6, 1 << 16, 1 << 31, u32::MAX];

/// Signs that no layout has.
const UNKNOWN_SIGNS: [u32; 6] = [0, 3, 127, 1 << 8 | 1, 1 << 16 | 2, u32::MAX];

unsafe extern "C" {
    fn heap_replay(
        layout: u32,
        calls: *const u32,
        calls_len: usize,
        words: *mut u32,
        words_len: usize,
        answers: *mut u32,
        answers_len: usize,
        fills: *mut u32,
        fills_len: usize,
    ) -> u64;
}

/// The words of a life's calls: sometimes with an unknown code, often with words left over.
fn words_of_calls(random: &mut Random, life: &Life) -> Vec<u32> {
    let mut calls = life.calls.concat();
    if random.once_in(8) && !calls.is_empty() {
        let call = random.below(life.calls.len());
        calls[4 * call] = random.pick(&UNKNOWN_CODES);
    }
    let left_over = random.below(4);
    calls.extend((0..left_over).map(|_| random.magnitude(4)));
    calls
}

/// The text of a call by its number.
fn numbered(calls: &[u32], number: usize) -> String {
    match call_text(&calls[4 * number..]) {
        Some(text) => format!("call {number} ({text})"),
        None => format!("call {number}"),
    }
}

/// Compares the words below the fills, and those outside the regions with what they were.
fn equal_stores(library: &List, twin: &List, before: &List, fills: &[u32]) -> Result<(), String> {
    for (region, &fill) in fills.iter().enumerate() {
        let start = MARGIN + region * REGION;
        equal("the store", library, twin, start..start + fill as usize)?;
    }
    let outside = MARGIN + fills.len() * REGION..before.whole().end;
    equal("the store", library, before, 0..MARGIN)?;
    equal("the store", library, before, outside)
}

/// What a run works on.
#[derive(Clone, PartialEq, Eq)]
struct Lists {
    calls: List,
    words: List,
    answers: List,
    fills: List,
}

impl Lists {
    /// The lists for a life, sometimes with too few answers or fills.
    fn new(random: &mut Random, life: &Life) -> Self {
        let calls = words_of_calls(random, life);
        let whole = 2 * life.calls.len();
        let answers = match random.below(8) {
            0 => random.between(0, whole),
            1 => whole,
            _ => whole + random.below(9),
        };
        let regions = region_count(life.words.len());
        let fills = match random.below(8) {
            0 => random.between(0, regions),
            1 => regions,
            _ => random.between(regions, MOST_REGIONS + 8),
        };
        Lists {
            calls: List::new(random, &calls),
            words: List::new(random, &life.words),
            answers: List::any(random, answers),
            fills: List::any(random, fills),
        }
    }

    /// Lets the library run the calls.
    fn run_library(&mut self, sign: u32) -> u64 {
        let calls = self.calls.words();
        let words = self.words.words_mut();
        let answers = self.answers.words_mut();
        let fills = self.fills.words_mut();
        // SAFETY: pointers and lengths are those of four slices that do not overlap; the library
        // only reads the first.
        unsafe {
            heap_replay(
                sign,
                calls.as_ptr(),
                calls.len(),
                words.as_mut_ptr(),
                words.len(),
                answers.as_mut_ptr(),
                answers.len(),
                fills.as_mut_ptr(),
                fills.len(),
            )
        }
    }

    /// Lets twin run the calls; answers how many it ran, and the fills of all regions.
    fn run_twin(&mut self, sign: u32) -> (usize, Vec<u32>) {
        let calls = self.calls.words();
        let mut all_fills = vec![0; region_count(self.words.words().len())];
        let run = replay(
            sign,
            calls,
            self.words.words_mut(),
            self.answers.words_mut(),
            &mut all_fills,
        );
        for (place, &fill) in self.fills.words_mut().iter_mut().zip(&all_fills) {
            *place = fill;
        }
        (run, all_fills)
    }
}

/// The lists before a run, and after a run of each side.
struct Runs<'a> {
    before: &'a Lists,
    library: Lists,
    twin: Lists,
    /// How many calls twin ran.
    run: usize,
    /// The fills of all regions in twin.
    all_fills: Vec<u32>,
}

impl Runs<'_> {
    /// Fails with a text at the first difference. Lists are compared with their margins.
    fn compare(&self, library_run: u64) -> Result<(), String> {
        let (library, twin) = (&self.library, &self.twin);
        self.answers_of_calls()?;
        if library_run != self.run as u64 {
            let run = self.run;
            return Err(format!("calls run: library {library_run}, twin {run}"));
        }
        let pairs = [
            ("the answers", &library.answers, &twin.answers),
            ("the fills", &library.fills, &twin.fills),
            ("the calls", &library.calls, &twin.calls),
        ];
        for (what, library, twin) in pairs {
            equal(what, library, twin, twin.whole())?;
        }
        let before = &self.before.words;
        equal_stores(&library.words, &twin.words, before, &self.all_fills)
    }

    fn answers_of_calls(&self) -> Result<(), String> {
        let (library, twin) = (self.library.answers.words(), self.twin.answers.words());
        let end = 2 * self.run;
        let Some(index) = first_difference(&library[..end], &twin[..end]) else {
            return Ok(());
        };
        let number = index / 2;
        let answer = 2 * number..2 * number + 2;
        Err(format!(
            "{}: library {}, twin {}",
            numbered(self.before.calls.words(), number),
            answer_text(&library[answer.clone()]),
            answer_text(&twin[answer])
        ))
    }
}

/// A life on which the two sides differ.
#[derive(Debug)]
struct Difference {
    seed: u64,
    sign: u32,
    words: usize,
    text: String,
}

impl Error for Difference {}

impl fmt::Display for Difference {
    fn fmt(&self, f: &mut fmt::Formatter) -> fmt::Result {
        let layout = match self.sign {
            1 => " (counted)",
            2 => " (cabling)",
            _ => "",
        };
        writeln!(
            f,
            "difference: seed {}, layout {}{layout}, store of {} words ({} regions)",
            self.seed,
            self.sign,
            self.words,
            region_count(self.words)
        )?;
        write!(f, "{}", self.text)
    }
}

impl Difference {
    fn of(life: &Life, sign: u32, text: String) -> Self {
        let (seed, words) = (life.seed, life.words.len());
        Difference {
            seed,
            sign,
            words,
            text,
        }
    }
}

/// Compares a life; answers the calls and answers of it that were run.
fn compare_life(life: &Life) -> Result<Vec<(u32, [u32; 2])>, Difference> {
    let mut random = Random::new(!life.seed);
    let before = Lists::new(&mut random, life);
    let unknown_sign = random.pick(&UNKNOWN_SIGNS);
    if random.once_in(8) && !nothing_altered(&before, unknown_sign) {
        let text = "the library runs calls or alters its lists".to_string();
        return Err(Difference::of(life, unknown_sign, text));
    }
    let mut twin = before.clone();
    let (run, all_fills) = twin.run_twin(life.sign);
    let mut library = before.clone();
    let library_run = library.run_library(life.sign);
    let runs = Runs {
        before: &before,
        library,
        twin,
        run,
        all_fills,
    };
    runs.compare(library_run)
        .map_err(|text| Difference::of(life, life.sign, text))?;
    let codes = before.calls.words().chunks(4).map(|call| call[0]);
    let (answers, _) = runs.twin.answers.words().as_chunks::<2>();
    Ok(codes.zip(answers.iter().copied()).take(run).collect())
}

/// Whether the library runs no call of an unknown layout and alters nothing.
fn nothing_altered(before: &Lists, sign: u32) -> bool {
    let mut library = before.clone();
    library.run_library(sign) == 0 && library == *before
}

/// What came of calls and answers; the value of an answer that is a word is left out.
type Seen = BTreeSet<(u32, [u32; 2])>;

fn note(seen: &mut Seen, code: u32, [kind, value]: [u32; 2]) {
    let value = if kind == 1 { 0 } else { value };
    seen.insert((code, [kind, value]));
}

/// Everything that the calls can answer.
const ALL_ANSWERS: [(u32, &[[u32; 2]]); 12] = [
    (calls::NEW, &[[0, 0], [3, 1], [3, 2], [3, 33]]),
    (calls::SET, &[[0, 0], [3, 1], [3, 31], [3, 32]]),
    (calls::GET, &[[0, 0], [3, 1], [3, 31], [3, 32]]),
    (calls::PUT, &[[0, 0], [3, 1], [3, 31], [3, 32]]),
    (calls::PEEK, &[[1, 0], [3, 1], [3, 31], [3, 32]]),
    (calls::COPY, &[[0, 0], [3, 1]]),
    (calls::CLEAR, &[[0, 0], [3, 1]]),
    (calls::SAME, &[[2, 0], [2, 1], [3, 1]]),
    (calls::HEAD, &[[1, 0], [3, 1], [3, 31]]),
    (calls::BEGIN, &[[0, 0], [3, 34]]),
    (calls::MARK, &[[4, 0], [5, 0], [3, 35]]),
    (calls::REFINE, &[[6, 0], [7, 0]]),
];

/// Fails if a call was never answered in one of its ways.
fn all_answers_came(seen: &Seen) -> Result<(), String> {
    for (code, answers) in ALL_ANSWERS {
        for &answer in answers {
            if !seen.contains(&(code, answer)) {
                let (name, text) = (NAMES[code as usize], answer_text(&answer));
                return Err(format!("compare_heap: no {name} was answered by {text}"));
            }
        }
    }
    Ok(())
}

/// Compares lives and answers the line about them.
fn compare(lives: u64, seed: u64) -> Result<String, Box<dyn Error>> {
    let mut seen = Seen::new();
    let mut count = 0;
    for number in 0..lives {
        let life = Life::new(seed.wrapping_add(number), Scope::Steps);
        let run = compare_life(&life)?;
        count += run.len();
        for (code, answer) in run {
            note(&mut seen, code, answer);
        }
    }
    if lives >= DEFAULT_LIVES {
        all_answers_came(&seen)?;
    }
    Ok(format!(
        "compare_heap: {lives} lives, {count} calls, no difference"
    ))
}

fn arguments(mut arguments: impl Iterator<Item = String>) -> Option<[u64; 3]> {
    let mut number_or = |default: u64| match arguments.next() {
        Some(text) => text.parse().ok(),
        None => Some(default),
    };
    let (lives, seed) = (number_or(DEFAULT_LIVES)?, number_or(DEFAULT_SEED)?);
    let watched = number_or(DEFAULT_WATCHED)?;
    match arguments.next() {
        Some(_) => None,
        None => Some([lives, seed, watched]),
    }
}

/// Runs both comparisons and prints a line for each.
fn run(lives: u64, seed: u64, watched: u64) -> Result<(), Box<dyn Error>> {
    println!("{}", compare(lives, seed)?);
    println!("{}", watched::compare(watched, seed)?);
    Ok(())
}

fn main() -> ExitCode {
    let Some([lives, seed, watched]) = arguments(env::args().skip(1)) else {
        eprintln!("usage: compare_heap [LIVES] [SEED] [WATCHED]");
        return ExitCode::from(2);
    };
    match run(lives, seed, watched) {
        Ok(()) => ExitCode::SUCCESS,
        Err(error) => {
            println!("{error}");
            ExitCode::FAILURE
        }
    }
}
