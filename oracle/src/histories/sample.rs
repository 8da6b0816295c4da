//! A small set of lines that reaches every corner, to be kept as a test of the
//! port: the sample of `steps`, and histories.

use std::collections::HashSet;

use openprot_orchestrator_sm::Event;

use super::answer::answer;
use super::corners::{names, set_up_names};
use super::generate::histories;
use super::{Call, History};
use crate::steps::sample as steps_sample;

/// Histories with more calls are not taken.
const MOST_CALLS: usize = 60;

/// The generated histories that are looked at for corners.
const SEARCHED: usize = 100_000;

/// The corners that no short history reaches.
const LONG: [&str; 2] = ["chain_of_255", "handed_past_place_256"];

/// The lines with no machine at hand, then one short history for each corner
/// that is still missing.
pub fn sample(seed: u64) -> Vec<History> {
    let mut sample = vec![before_any_machine(seed)];
    let mut missing = wanted();
    for history in histories(seed).take(SEARCHED) {
        if missing.is_empty() {
            break;
        }
        if !is_short(&history) {
            continue;
        }
        let corners = answer(&history).corners;
        if corners.iter().any(|corner| missing.contains(corner)) {
            for corner in corners {
                missing.remove(&corner);
            }
            sample.push(history);
        }
    }
    sample
}

/// The cases of `steps`, and a call that finds no machine.
fn before_any_machine(seed: u64) -> History {
    let steps = steps_sample::sample(seed);
    let mut calls: Vec<Call> = steps.into_iter().map(Call::Step).collect();
    calls.push(Call::Begin(Event::EffectFailed));
    History::new(calls)
}

/// A history in the middle of the lines begins with a machine of its own.
fn is_short(history: &History) -> bool {
    history.calls.len() <= MOST_CALLS && matches!(history.calls[0], Call::New { .. })
}

fn wanted() -> HashSet<String> {
    let mut wanted: HashSet<String> = names().into_iter().collect();
    wanted.extend(set_up_names());
    for name in LONG {
        wanted.remove(name);
    }
    wanted
}

#[cfg(test)]
mod tests {
    use super::*;

    const MOST_BYTES: usize = 250_000;

    #[test]
    fn the_sample_reaches_every_corner_and_stays_small() {
        let mut missing = wanted();
        let mut bytes = 0;
        for history in sample(1) {
            let answers = answer(&history);
            bytes += format!("{history}\n{answers}\n").len();
            for corner in answers.corners {
                missing.remove(&corner);
            }
        }
        assert!(missing.is_empty(), "{missing:?}");
        assert!(bytes <= MOST_BYTES, "{bytes}");
    }
}
