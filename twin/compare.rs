//! Compares the library's `topology_check`, and its sets of numbers, with the answers of twin.
//!
//! Built with DIR for what is built here and LIBDIR for the directory of libhost.a and libbitset_bench.a:
//!
//!     rustc --edition 2021 -O --crate-type rlib --crate-name twin -o DIR/libtwin.rlib twin/src/lib.rs
//!     rustc --edition 2021 -O --extern twin=DIR/libtwin.rlib -L native=LIBDIR -l static=host -l static=bitset_bench -o DIR/compare twin/compare.rs
//!
//! Run as `compare [INPUTS] [SEED] [TOPOCHECK]`, by default with 200000 inputs and a seed of 1. With
//! the path of the program topocheck, the lines it prints are compared too. The exit status is 0
//! if there is no difference, 1 if there is one or a run fails, and 2 if the arguments are wrong.

use std::collections::BTreeMap;
use std::env;
use std::error::Error;
use std::fmt;
use std::io::{ErrorKind, Write};
use std::process::{Command, ExitCode, Output, Stdio};

use twin::bit_work;
use twin::inputs::{self, Input, Inputs, Origin};
use twin::topocheck;

const DEFAULT_INPUTS: usize = 200_000;
const DEFAULT_SEED: u64 = 1;

/// The last bytes of all answers: accepted, the faults, too long.
const ALL_NUMBERS: [u64; 12] = [0, 10, 11, 12, 13, 14, 15, 16, 17, 18, 19, 255];

unsafe extern "C" {
    fn topology_check(bytes: *const u8, len: usize) -> u64;
    safe fn bitset_drain(seed: u64, tries: u64, rounds: u64) -> u64;
    safe fn bitset_sweep(seed: u64, tries: u64, rounds: u64) -> u64;
    safe fn bitset_ask(seed: u64, tries: u64, rounds: u64) -> u64;
}

/// The answer of the library.
fn library_answer(bytes: &[u8]) -> u64 {
    // SAFETY: the pointer and the length are those of a slice, which the library only reads.
    unsafe { topology_check(bytes.as_ptr(), bytes.len()) }
}

/// An input that the two sides answer differently.
#[derive(Debug)]
struct Difference {
    origin: Origin,
    other_name: &'static str,
    other_answer: String,
    twin_answer: String,
    bytes: Vec<u8>,
}

impl Error for Difference {}

impl fmt::Display for Difference {
    fn fmt(&self, f: &mut fmt::Formatter) -> fmt::Result {
        writeln!(f, "difference: {}, {} bytes", self.origin, self.bytes.len())?;
        writeln!(f, "{}: {}", self.other_name, self.other_answer)?;
        writeln!(f, "twin: {}", self.twin_answer)?;
        write!(f, "bytes:")?;
        self.bytes
            .iter()
            .try_for_each(|byte| write!(f, " {byte:02X}"))
    }
}

/// How often each thing was counted.
struct Tally<K> {
    counts: BTreeMap<K, usize>,
}

impl<K: Ord + Copy> Tally<K> {
    fn new() -> Self {
        let counts = BTreeMap::new();
        Tally { counts }
    }

    fn add(&mut self, key: K) {
        *self.counts.entry(key).or_default() += 1;
    }

    fn count(&self, key: K) -> usize {
        self.counts.get(&key).copied().unwrap_or(0)
    }
}

/// An answer of the check, with what it means.
fn explained(answer: u64) -> String {
    let (place, number) = (answer / 256, answer % 256);
    match (answer, number) {
        (0, _) => "0, accepted".to_string(),
        (topocheck::HOST_TOO_LONG, _) => "255, too long".to_string(),
        (_, 10..=19) => format!("{answer}, refused {number} at {place}"),
        _ => format!("{answer}, no answer of the check"),
    }
}

/// Compares the library with twin; answers how often each number came.
fn compare_library(count: usize, seed: u64) -> Result<Tally<u64>, Difference> {
    let mut tally = Tally::new();
    for Input { origin, bytes } in Inputs::new(seed).take(count) {
        let twin_answer = topocheck::host_answer(&bytes);
        let other_answer = library_answer(&bytes);
        if twin_answer != other_answer {
            return Err(Difference {
                origin,
                other_name: "topology_check",
                other_answer: explained(other_answer),
                twin_answer: explained(twin_answer),
                bytes,
            });
        }
        tally.add(twin_answer % 256);
    }
    Ok(tally)
}

/// The line about the library.
fn library_line(count: usize, tally: &Tally<u64>) -> String {
    let sound = tally.count(0);
    let too_long = tally.count(topocheck::HOST_TOO_LONG);
    let refused = count - sound - too_long;
    let faults: Vec<String> = (10..=19)
        .map(|number| format!("{number}: {}", tally.count(number)))
        .collect();
    let faults = faults.join(", ");
    format!(
        "compare: {count} inputs ({sound} sound, {too_long} too long, {refused} refused, \
         of them {faults}), no difference"
    )
}

/// Fails if one of the answers never came.
fn all_numbers_came(tally: &Tally<u64>) -> Result<(), String> {
    match ALL_NUMBERS.iter().find(|&&number| tally.count(number) == 0) {
        Some(number) => Err(format!("compare: no input was answered by {number}")),
        None => Ok(()),
    }
}

/// Compares the checksums of work on sets of numbers; answers how many were compared.
fn compare_sets(seed: u64) -> Result<usize, String> {
    let mut compared = 0;
    for tries in [0, 1, 40, 1_000, 22_000, 200_000] {
        for seed in seed..seed + 20 {
            let pairs = [
                (
                    "drain",
                    bitset_drain(seed, tries, 2),
                    bit_work::drain(seed, tries, 2),
                ),
                (
                    "sweep",
                    bitset_sweep(seed, tries, 2),
                    bit_work::sweep(seed, tries, 2),
                ),
                (
                    "ask",
                    bitset_ask(seed, tries, 2),
                    bit_work::ask(seed, tries, 2),
                ),
            ];
            for (name, library, twin) in pairs {
                if library != twin {
                    return Err(format!(
                        "difference: {name} of a set, seed {seed}, {tries} inserts: \
                         library {library}, twin {twin}"
                    ));
                }
                compared += 1;
            }
        }
    }
    Ok(compared)
}

/// The kinds of lines that topocheck prints.
#[derive(Clone, Copy, PartialEq, Eq, PartialOrd, Ord)]
enum LineKind {
    Ok,
    Refused,
    NoSpace,
    TooLong,
}

impl LineKind {
    fn of(line: &str) -> Self {
        if line.starts_with("ok") {
            LineKind::Ok
        } else if line.starts_with("refused 33") {
            LineKind::NoSpace
        } else if line.starts_with("refused") {
            LineKind::Refused
        } else {
            LineKind::TooLong
        }
    }
}

/// Runs the program with `input` on its standard input.
fn run(program: &str, input: &[u8]) -> Result<Output, String> {
    let mut child = Command::new(program)
        .stdin(Stdio::piped())
        .stdout(Stdio::piped())
        .stderr(Stdio::piped())
        .spawn()
        .map_err(|error| format!("compare: {program} does not start: {error}"))?;
    let written = match child.stdin.take() {
        Some(mut stdin) => stdin.write_all(input),
        None => Ok(()),
    };
    let output = child.wait_with_output();
    // The program may leave what is past the longest image unread.
    if let Err(error) = written {
        let length = input.len();
        if error.kind() != ErrorKind::BrokenPipe || length <= topocheck::PROGRAM_BYTES {
            return Err(format!(
                "compare: {program} did not read its input of {length} bytes: {error}"
            ));
        }
    }
    output.map_err(|error| format!("compare: {program} did not end: {error}"))
}

/// What a run of the program is compared by.
fn run_text(stdout: &[u8], status: Option<i32>) -> String {
    let status = status.map_or("none".to_string(), |code| code.to_string());
    format!(
        "{:?}, exit status {status}",
        String::from_utf8_lossy(stdout)
    )
}

/// Compares the program topocheck with twin; answers how often each kind of line came.
fn compare_program(program: &str, inputs: Vec<Input>) -> Result<Tally<LineKind>, Box<dyn Error>> {
    let mut tally = Tally::new();
    for Input { origin, bytes } in inputs {
        let line = topocheck::line(&bytes);
        let output = run(program, &bytes)?;
        let twin_answer = run_text(format!("{line}\n").as_bytes(), Some(0));
        let other_answer = run_text(&output.stdout, output.status.code());
        if twin_answer != other_answer {
            return Err(Box::new(Difference {
                origin,
                other_name: "program",
                other_answer,
                twin_answer,
                bytes,
            }));
        }
        tally.add(LineKind::of(&line));
    }
    Ok(tally)
}

/// The line about the program.
fn program_line(count: usize, tally: &Tally<LineKind>) -> String {
    format!(
        "compare: {count} runs of the program ({} ok, {} refused, {} without space, \
         {} too long), no difference",
        tally.count(LineKind::Ok),
        tally.count(LineKind::Refused),
        tally.count(LineKind::NoSpace),
        tally.count(LineKind::TooLong)
    )
}

/// What the program is asked to do.
struct Task {
    inputs: usize,
    seed: u64,
    program: Option<String>,
}

impl Task {
    fn from_arguments(mut arguments: impl Iterator<Item = String>) -> Option<Task> {
        let task = Task {
            inputs: number_or(arguments.next(), DEFAULT_INPUTS)?,
            seed: number_or(arguments.next(), DEFAULT_SEED)?,
            program: arguments.next(),
        };
        match arguments.next() {
            Some(_) => None,
            None => Some(task),
        }
    }

    fn run(&self) -> Result<(), Box<dyn Error>> {
        let tally = compare_library(self.inputs, self.seed)?;
        println!("{}", library_line(self.inputs, &tally));
        if self.inputs >= DEFAULT_INPUTS {
            all_numbers_came(&tally)?;
        }
        let compared = compare_sets(self.seed)?;
        println!("compare: {compared} runs on sets of numbers, no difference");
        if let Some(program) = &self.program {
            let inputs = inputs::program_inputs(self.seed);
            let count = inputs.len();
            let tally = compare_program(program, inputs)?;
            println!("{}", program_line(count, &tally));
        }
        Ok(())
    }
}

fn number_or<T: std::str::FromStr>(argument: Option<String>, default: T) -> Option<T> {
    match argument {
        Some(text) => text.parse().ok(),
        None => Some(default),
    }
}

fn main() -> ExitCode {
    let Some(task) = Task::from_arguments(env::args().skip(1)) else {
        eprintln!("usage: compare [INPUTS] [SEED] [TOPOCHECK]");
        return ExitCode::from(2);
    };
    match task.run() {
        Ok(()) => ExitCode::SUCCESS,
        Err(error) => {
            println!("{error}");
            ExitCode::FAILURE
        }
    }
}
