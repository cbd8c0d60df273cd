//! Checks the topology file named on the command line.
//!
//!     (cd crates/host && rt lib) && mkdir -p target
//!     rustc --edition 2021 -O examples/check.rs -L native=crates/host/out -l static=host -o target/check_rs
//!     target/check_rs samples/campus.cm

use std::process::ExitCode;

unsafe extern "C" {
    /// include/topology_check.h says what it answers.
    fn topology_check(bytes: *const u8, len: usize) -> u64;
}

/// What is said of an image of the cabling layout.
enum Answer {
    Accepted,
    TooLong,
    Refused { fault: u64, place: u64 },
}

fn check(bytes: &[u8]) -> Answer {
    // SAFETY: the pointer and the length are those of one slice, which is only read.
    match unsafe { topology_check(bytes.as_ptr(), bytes.len()) } {
        0 => Answer::Accepted,
        255 => Answer::TooLong,
        answer => Answer::Refused {
            fault: answer % 256,
            place: answer / 256,
        },
    }
}

fn main() -> ExitCode {
    let Some(path) = std::env::args().nth(1) else {
        eprintln!("usage: check FILE");
        return ExitCode::from(2);
    };
    let bytes = match std::fs::read(&path) {
        Ok(bytes) => bytes,
        Err(error) => {
            eprintln!("{path}: {error}");
            return ExitCode::from(2);
        }
    };
    match check(&bytes) {
        Answer::Accepted => {
            println!("ok");
            ExitCode::SUCCESS
        }
        Answer::TooLong => {
            println!("too long");
            ExitCode::FAILURE
        }
        Answer::Refused { fault, place } => {
            println!("refused {fault} at {place}");
            ExitCode::FAILURE
        }
    }
}
