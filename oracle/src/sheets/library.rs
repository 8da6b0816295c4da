//! Compares check and run of the static library with the oracle: on generated
//! sheets, with every length of the buffer and every limit where the transcript
//! is short.

use std::ffi::OsStr;
use std::fmt;
use std::process::ExitCode;

use super::compare::shown;
use super::extremes::beyond_the_programs;
use super::generate::{Case, cases};
use super::record::{Moment, Recording};
use super::{Answer, PROGRAM_BYTES, PROGRAM_LIMIT};
use crate::command::{number, print_outcome, with_arguments};
use crate::compare::{MOST_DIFFERENCES, Outcome};
use crate::random::SplitMix64;
use crate::tally::{Tally, missed};

/// The two functions of the library.
pub trait Library {
    fn check(&self, sheet: &[u8]) -> Answer;
    fn run(&self, sheet: &[u8], out: &mut [u8], limit: u64) -> Answer;
}

/// Where there are at most so many pairs of a length and a limit, each is taken.
const PAIRED: usize = 800;
/// Transcripts of at most so many bytes get every length and every limit.
const SWEPT: usize = 600;
/// Every sheet gets so many lengths and limits that are drawn.
const DRAWN: usize = 4;
/// The bytes behind the buffer that have to stay as they are.
const GUARD: usize = 64;
/// What follows the sheet in memory. A reader that goes past the sheet's end
/// finds the end of a line and one line more.
const BEHIND: &[u8] = b"\nR\tno\n";

/// From this many sheets on, a comparison must reach each row.
const MINIMUMS_FROM: u64 = 1_000;

/// Runs the command `SEED COUNT` on the library.
pub fn main(library: &impl Library) -> ExitCode {
    with_arguments("library", |arguments: &[&OsStr]| {
        let [seed, count] = arguments else {
            return Err("usage: library SEED COUNT".into());
        };
        let outcome = compare(library, number(seed)?, number(count)?);
        print_outcome(&outcome).map_err(|error| error.to_string())
    })
}

/// What a comparison of the library has reached.
pub struct Counts {
    sheets: u64,
    rows: Tally,
}

impl Default for Counts {
    fn default() -> Self {
        let mut names: Vec<String> = CALLS.map(String::from).into();
        names.extend((0..=9).map(|number| format!("run_gave_{number}")));
        names.extend(STOPS.map(String::from));
        Self {
            sheets: 0,
            rows: Tally::new(names),
        }
    }
}

impl fmt::Display for Counts {
    fn fmt(&self, f: &mut fmt::Formatter<'_>) -> fmt::Result {
        write!(f, "sheets {}\n{}", self.sheets, self.rows)
    }
}

const CALLS: [&str; 4] = [
    "checks",
    "runs",
    "sheets_with_every_pair",
    "sheets_with_every_length_and_every_limit",
];

const BEFORE_X: &str = "stopped_before_an_X_line";
const BEFORE_S: &str = "stopped_before_an_S_line";
const BEFORE_T: &str = "stopped_before_a_T_line";
const BEFORE_BEGUN: &str = "stopped_before_the_event_of_an_E_line";
const BEFORE_QUEUED: &str = "stopped_before_a_queued_event";

/// Where a run can be stopped by 8 or 9.
const STOPS: [&str; 5] = [BEFORE_X, BEFORE_S, BEFORE_T, BEFORE_BEGUN, BEFORE_QUEUED];

/// Where the run is stopped, if the moment at `place` does not happen.
fn stop(recording: &Recording, place: usize) -> Option<&'static str> {
    let begins = match &recording.moments[..place] {
        [.., Moment::Line(line)] => line.starts_with('S'),
        moments => moments.is_empty(),
    };
    Some(match recording.moments.get(place)? {
        Moment::Line(line) if line.starts_with('X') => BEFORE_X,
        Moment::Line(line) if line.starts_with('S') => BEFORE_S,
        Moment::Line(_) => BEFORE_T,
        Moment::Taken if begins => BEFORE_BEGUN,
        Moment::Taken => BEFORE_QUEUED,
    })
}

/// Compares `count` sheets, and then those that only the library can be given.
pub fn compare(library: &impl Library, seed: u64, count: usize) -> Outcome<Counts> {
    let mut comparison = Comparison {
        library,
        random: SplitMix64::new(seed),
        outcome: Outcome::default(),
    };
    let beyond = beyond_the_programs().into_iter().map(|extreme| Case {
        text: extreme.text,
        source: extreme.name,
    });
    for (index, case) in cases(seed).take(count).chain(beyond).enumerate() {
        comparison.sheet(index, &case);
        if comparison.outcome.differences >= MOST_DIFFERENCES {
            return comparison.outcome;
        }
    }
    let mut outcome = comparison.outcome;
    if outcome.counts.sheets >= MINIMUMS_FROM {
        outcome
            .failures
            .extend(missed(outcome.counts.rows.rows(), 1));
    }
    outcome
}

struct Comparison<'a, L> {
    library: &'a L,
    random: SplitMix64,
    outcome: Outcome<Counts>,
}

impl<L: Library> Comparison<'_, L> {
    fn add(&mut self, name: &str) {
        assert!(self.outcome.counts.rows.add(name), "{name} is not a row");
    }

    fn sheet(&mut self, index: usize, case: &Case) {
        self.outcome.counts.sheets += 1;
        let recording = Recording::of(&case.text);
        let calls = Calls {
            library: self.library,
            memory: [&case.text, BEHIND].concat(),
            length: case.text.len(),
            transcript: recording.transcript(),
            recording,
        };
        self.add("checks");
        let mut difference = calls.check();
        for (buffer, limit) in self.pairs(&calls) {
            if difference.is_some() {
                break;
            }
            difference = calls.run(buffer, limit);
            self.count(&calls.recording, buffer, limit);
        }
        if let Some(difference) = difference {
            self.outcome.differences += 1;
            let sheet = shown(index, case);
            self.outcome.failures.push(format!("{sheet}\n{difference}"));
        }
    }

    fn count(&mut self, recording: &Recording, buffer: usize, limit: u64) {
        let (answer, place) = recording.stopped(buffer, limit);
        self.add("runs");
        self.add(&format!("run_gave_{}", answer.refusal.number));
        if let Some(name) = stop(recording, place) {
            self.add(name);
        }
    }

    /// The lengths and limits that a sheet is run with: those of the programs,
    /// then up to one past what the run needs.
    fn pairs(&mut self, calls: &Calls<L>) -> Vec<(usize, u64)> {
        let bytes = calls.transcript.len();
        let settled = calls.recording.stopped(usize::MAX, u64::MAX).0.settled;
        let (lengths, limits) = (0..=bytes + 1, 0..=settled + 1);
        let mut pairs = vec![
            (PROGRAM_BYTES, PROGRAM_LIMIT),
            (bytes, settled),
            (bytes + 1, u64::MAX),
        ];
        if bytes > 0 && (bytes + 2) * (settled as usize + 2) <= PAIRED {
            self.add("sheets_with_every_pair");
            let with_every_limit = |length| limits.clone().map(move |limit| (length, limit));
            pairs.extend(lengths.clone().flat_map(with_every_limit));
        } else if bytes > 0 && bytes <= SWEPT {
            self.add("sheets_with_every_length_and_every_limit");
            pairs.extend(lengths.clone().map(|length| (length, settled)));
            pairs.extend(limits.clone().map(|limit| (bytes, limit)));
        }
        for _ in 0..DRAWN {
            let length = self.random.between(0, bytes + 1);
            let limit = self.random.between(0, settled as usize + 1) as u64;
            pairs.extend([(length, limit), (length, u64::MAX), (bytes + 1, limit)]);
        }
        pairs
    }
}

/// The calls on one sheet.
struct Calls<'a, L> {
    library: &'a L,
    /// The sheet, and behind it what is not to be read.
    memory: Vec<u8>,
    length: usize,
    recording: Recording,
    transcript: Vec<u8>,
}

impl<L: Library> Calls<'_, L> {
    fn check(&self) -> Option<String> {
        let answer = self.library.check(&self.memory[..self.length]);
        let expected = self.recording.checked();
        (answer != expected).then(|| format!("check gave {answer:?}\noracle {expected:?}"))
    }

    fn run(&self, buffer: usize, limit: u64) -> Option<String> {
        let (expected, _) = self.recording.stopped(buffer, limit);
        let mut memory: Vec<u8> = (0..buffer + GUARD).map(fill).collect();
        let sheet = &self.memory[..self.length];
        let answer = self.library.run(sheet, &mut memory[..buffer], limit);
        let call = format!("run with {buffer} bytes and the limit {limit}");
        if answer != expected {
            return Some(format!("{call} gave {answer:?}\noracle {expected:?}"));
        }
        let (written, rest) = memory.split_at(expected.written as usize);
        if written != &self.transcript[..written.len()] {
            return Some(format!("{call} wrote {}", written.escape_ascii()));
        }
        let changed = (written.len()..).zip(rest).find(|(p, b)| fill(*p) != **b);
        changed.map(|(place, _)| format!("{call} changed byte {place}"))
    }
}

/// What stands in the buffer before a run. No transcript has such bytes.
fn fill(place: usize) -> u8 {
    0x80 | place as u8
}

#[cfg(test)]
mod tests {
    use std::cell::RefCell;

    use super::*;

    /// The oracle as a library, with changes to what it gives.
    struct Changed {
        check: fn(&mut Answer),
        /// How many events are taken past the limit.
        late: u64,
        run: fn(&mut [u8], &mut Answer),
        /// The last sheet, since most calls are about the same one.
        last: RefCell<(Vec<u8>, Recording)>,
    }

    impl Changed {
        fn new(run: fn(&mut [u8], &mut Answer)) -> Self {
            Self {
                check: |_| {},
                late: 0,
                run,
                last: RefCell::new((Vec::new(), Recording::of(b""))),
            }
        }

        fn differences(&self) -> u64 {
            compare(self, 1, COUNT).differences
        }
    }

    impl Library for Changed {
        fn check(&self, sheet: &[u8]) -> Answer {
            let mut answer = Recording::of(sheet).checked();
            (self.check)(&mut answer);
            answer
        }

        fn run(&self, sheet: &[u8], out: &mut [u8], limit: u64) -> Answer {
            let mut last = self.last.borrow_mut();
            if last.0 != sheet {
                *last = (sheet.to_vec(), Recording::of(sheet));
            }
            let limit = limit.saturating_add(self.late);
            let (mut answer, _) = last.1.stopped(out.len(), limit);
            let written = answer.written as usize;
            out[..written].copy_from_slice(&last.1.transcript()[..written]);
            (self.run)(out, &mut answer);
            answer
        }
    }

    const COUNT: usize = 130;

    #[test]
    fn a_library_that_is_right_has_no_difference() {
        let outcome = compare(&Changed::new(|_, _| {}), 1, COUNT);
        assert_eq!(outcome.failures, Vec::<String>::new());
        assert_eq!(outcome.counts.sheets, COUNT as u64 + 2);
    }

    #[test]
    fn each_of_the_five_numbers_of_run_counts() {
        let changes: [fn(&mut [u8], &mut Answer); 5] = [
            |_, answer| answer.written += 1,
            |_, answer| answer.settled += 1,
            |_, answer| answer.refusal.number ^= 8,
            |_, answer| answer.refusal.other += 1,
            |_, answer| answer.refusal.place += u64::from(answer.refusal.number == 1),
        ];
        for change in changes {
            assert!(Changed::new(change).differences() > 0);
        }
    }

    #[test]
    fn each_of_the_five_numbers_of_check_counts() {
        let changes: [fn(&mut Answer); 5] = [
            |answer| answer.written = 1,
            |answer| answer.settled = 1,
            |answer| answer.refusal.number *= u64::from(answer.refusal.number != 6),
            |answer| answer.refusal.other = 0,
            |answer| answer.refusal.place += u64::from(answer.refusal.number == 1),
        ];
        for check in changes {
            let right = Changed::new(|_, _| {});
            assert!(Changed { check, ..right }.differences() > 0);
        }
    }

    #[test]
    fn every_byte_of_the_buffer_counts() {
        let changes: [fn(&mut [u8], &mut Answer); 3] = [
            // The byte after those written.
            |out, answer| {
                if let Some(byte) = out.get_mut(answer.written as usize) {
                    *byte = b'\n';
                }
            },
            // The last one of the buffer.
            |out, answer| {
                if answer.written < out.len() as u64 {
                    out[out.len() - 1] = 0;
                }
            },
            // One that is written.
            |out, answer| {
                if answer.written > 200 {
                    out[199] ^= 1;
                }
            },
        ];
        for change in changes {
            assert!(Changed::new(change).differences() > 0);
        }
    }

    #[test]
    fn a_limit_that_is_met_one_event_too_late_is_found() {
        let right = Changed::new(|_, _| {});
        assert!(Changed { late: 1, ..right }.differences() > 0);
    }
}
