//! A small set of sheets that reaches every row that a short sheet can, to be
//! kept with the oracle's transcripts as a test of the port.

use std::collections::HashSet;

use super::counts::{names, reached};
use super::generate::{Case, cases};
use super::record::Recording;

/// Sheets with more bytes are not taken.
const MOST_BYTES: usize = 1_200;

/// The generated sheets that are looked at.
const SEARCHED: usize = 100_000;

/// What takes a longer sheet, or a longer transcript than the buffer.
const LONG: [&str; 12] = [
    "number_3",
    "number_8",
    "no_room_for_X",
    "no_room_for_S",
    "no_room_for_T",
    "made_from_chains_of_255",
    "made_from_restores_up_to_255",
    "made_from_many_components",
    "made_from_too_long",
    "made_from_long_transcript",
    "chain_of_255",
    "handed_past_place_256",
];

/// The rows that short sheets reach.
fn wanted() -> HashSet<String> {
    let names = names().into_iter();
    names
        .filter(|name| !LONG.contains(&name.as_str()))
        .collect()
}

/// One short sheet for each row that is not reached by those before it.
pub fn sample(seed: u64) -> Vec<Case> {
    let mut sample = Vec::new();
    let mut missing = wanted();
    for case in cases(seed).take(SEARCHED) {
        if missing.is_empty() {
            break;
        }
        if case.text.len() > MOST_BYTES {
            continue;
        }
        let names = reached(&case, &Recording::of_input(&case.text));
        if names.iter().any(|name| missing.contains(name)) {
            missing.retain(|name| !names.contains(name));
            sample.push(case);
        }
    }
    sample
}

#[cfg(test)]
mod tests {
    use super::*;

    #[test]
    fn the_sample_reaches_every_row_and_stays_small() {
        let sample = sample(1);
        let mut missing = wanted();
        for case in &sample {
            for name in reached(case, &Recording::of_input(&case.text)) {
                missing.remove(&name);
            }
        }
        assert!(missing.is_empty(), "{missing:?}");
        assert!(sample.len() <= 100, "{}", sample.len());
    }
}
