//! A small set of cases that reaches every row, to be kept as a test of the
//! port.

use std::collections::HashSet;

use super::Case;
use super::answer::answer;
use super::generate::cases;
use super::line::parse;
use super::rows::{names, reached, size};

/// The cases in a sample, if fewer reach every row.
const SAMPLE: usize = 400;

/// Cases with a longer chain are taken only for a row about sizes.
const LONGEST_CHAIN: usize = 12;

/// The generated cases that are looked at for rows.
const SEARCHED: usize = 1_000_000;

/// The single steps of document 01's "Ten rows".
const DOCUMENT_01_ROWS: [&str; 6] = [
    "2 1 7 0 0 0 256 0 256 0 0 0 0 0 0 0 0 0 0",
    "2 1 7 0 0 0 256 1 256 0 0 0 0 0 0 1 7 0 0",
    "0 1 7 0 0 0 256 5 7 0 0 0 0 0 0 11 7 0 0",
    "1 1 7 0 0 0 256 5 7 0 0 0 0 0 0 11 7 0 0",
    "2 1 7 0 0 0 256 5 7 0 0 0 0 0 0 11 7 0 0",
    "0 2 1 0 0 0 256 2 0 2 0 256 5 2 1 0 0 0 0 1 0 0 0 0 11 2 0 0",
];

/// The cases of the sample: document 01's, then one for each row that is still
/// missing, then more short ones.
pub fn sample(seed: u64) -> Vec<Case> {
    let mut sample: Vec<Case> = DOCUMENT_01_ROWS
        .iter()
        .map(|row| parse(row).expect("a row of document 01"))
        .collect();
    let sizes: HashSet<String> = size::names().into_iter().collect();
    let mut missing: HashSet<String> = names().into_iter().collect();
    for case in &sample {
        remove_reached(&mut missing, case);
    }
    for case in cases(seed).take(SEARCHED) {
        if missing.is_empty() {
            break;
        }
        let rows = reached(&case, &answer(&case));
        let wanted = |row: &String| is_short(&case) || sizes.contains(row);
        if rows.iter().any(|row| wanted(row) && missing.contains(row)) {
            remove_reached(&mut missing, &case);
            sample.push(case);
        }
    }
    let rest = SAMPLE.saturating_sub(sample.len());
    let more: Vec<Case> = cases(seed)
        .filter(|case| is_short(case) && !sample.contains(case))
        .take(rest)
        .collect();
    sample.extend(more);
    sample
}

fn is_short(case: &Case) -> bool {
    case.entries.len() <= LONGEST_CHAIN
}

fn remove_reached(missing: &mut HashSet<String>, case: &Case) {
    for row in reached(case, &answer(case)) {
        missing.remove(&row);
    }
}

#[cfg(test)]
mod tests {
    use super::*;

    const MOST_BYTES: usize = 150_000;

    #[test]
    fn the_sample_reaches_every_row_and_stays_small() {
        let sample = sample(1);
        assert_eq!(sample.len(), SAMPLE);
        let mut missing: HashSet<String> = names().into_iter().collect();
        let mut bytes = 0;
        for case in &sample {
            remove_reached(&mut missing, case);
            bytes += format!("{case}\n{}\n", answer(case)).len();
        }
        assert!(missing.is_empty(), "{missing:?}");
        assert!(bytes <= MOST_BYTES, "{bytes}");
    }
}
