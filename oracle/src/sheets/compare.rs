//! Compares the two programs with the oracle on generated sheets.

use std::fs;
use std::io;
use std::path::Path;

use super::counts::Counts;
use super::generate::{Case, cases};
use super::programs::Programs;
use super::record::Recording;
use crate::compare::{MOST_DIFFERENCES, Outcome};
use crate::subject::Counts as _;

/// The bytes of a sheet that a difference shows.
const SHOWN: usize = 1_500;

/// Compares `count` sheets.
pub fn compare(seed: u64, count: usize, programs: &Programs) -> io::Result<Outcome<Counts>> {
    let mut outcome = Outcome::<Counts>::default();
    for (index, case) in cases(seed).take(count).enumerate() {
        let recording = Recording::of_input(&case.text);
        outcome.counts.record(&case, &recording);
        for difference in programs.differences(&case.text, &recording)? {
            outcome.differences += 1;
            let sheet = shown(index, &case);
            outcome.failures.push(format!("{sheet}\n{difference}"));
        }
        if outcome.differences >= MOST_DIFFERENCES {
            return Ok(outcome);
        }
    }
    outcome.failures.extend(outcome.counts.missed_minimums());
    Ok(outcome)
}

/// What `count` sheets reach, with no program to compare.
pub fn cover(seed: u64, count: usize) -> Outcome<Counts> {
    let mut outcome = Outcome::<Counts>::default();
    for case in cases(seed).take(count) {
        let recording = Recording::of_input(&case.text);
        outcome.counts.record(&case, &recording);
    }
    outcome.failures = outcome.counts.missed_minimums();
    outcome
}

/// The number of a sheet, and its text.
pub fn shown(index: usize, case: &Case) -> String {
    let text = &case.text[..case.text.len().min(SHOWN)];
    let bytes = case.text.len();
    let source = case.source;
    let text = text.escape_ascii();
    format!("sheet {index}, {bytes} bytes, {source}: {text}")
}

/// Writes sheets into a folder, each with what `replay` has to print.
pub fn write(cases: impl IntoIterator<Item = Case>, folder: &Path) -> io::Result<()> {
    fs::create_dir_all(folder)?;
    for (index, case) in cases.into_iter().enumerate() {
        let printed = Recording::of_input(&case.text).printed();
        fs::write(folder.join(format!("{index}.sheet")), &case.text)?;
        fs::write(folder.join(format!("{index}.transcript")), printed)?;
    }
    Ok(())
}
