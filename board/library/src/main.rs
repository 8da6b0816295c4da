//! Compares the static library with the oracle; see oracle/README.md.

use std::process::ExitCode;

use oracle::sheets::library::{Library, main as compare};
use oracle::sheets::{Answer, Refusal};

/// The library, called through the harness.
struct Harness;

impl Library for Harness {
    fn check(&self, sheet: &[u8]) -> Answer {
        answer(mallardtray::check(sheet))
    }

    fn run(&self, sheet: &[u8], out: &mut [u8], limit: u64) -> Answer {
        answer(mallardtray::run(sheet, out, limit))
    }
}

fn answer(given: mallardtray::Answer) -> Answer {
    Answer {
        refusal: Refusal::new(given.number, given.place, given.other),
        written: given.written,
        settled: given.settled,
    }
}

fn main() -> ExitCode {
    compare(&Harness)
}
