//! What a comparison has reached: a count for each corner of `corners`, and one
//! for each profile.

use std::fmt;

use super::corners::{names, never_names, rare_names, set_up_names};
use super::generate::PROFILES;
use super::{Answers, History};
use crate::subject::{self, MINIMUMS_FROM};
use crate::tally::{Tally, missed};

/// How often a comparison has to reach each corner, and each of the rare ones.
const LEAST: u64 = 1_000;
const LEAST_OF_RARE: u64 = 20;

pub struct Counts {
    histories: u64,
    calls: u64,
    events: u64,
    corners: Tally,
    rare: Tally,
    never: Tally,
}

fn profile(name: &str) -> String {
    format!("profile_{name}")
}

impl Default for Counts {
    fn default() -> Self {
        let mut corners = names();
        corners.extend(set_up_names());
        let mut rare: Vec<String> = PROFILES.iter().map(|p| profile(p.name)).collect();
        rare.extend(rare_names());
        Self {
            histories: 0,
            calls: 0,
            events: 0,
            corners: Tally::new(corners),
            rare: Tally::new(rare),
            never: Tally::new(never_names()),
        }
    }
}

impl Counts {
    fn add(&mut self, name: &str) {
        let added = [&mut self.corners, &mut self.rare, &mut self.never].map(|t| t.add(name));
        assert!(added.contains(&true), "{name} is not counted");
    }
}

impl subject::Counts<History, Answers> for Counts {
    fn record(&mut self, history: &History, answers: &Answers) {
        self.histories += 1;
        self.calls += history.calls.len() as u64;
        self.events += answers.events;
        // The first history has no profile.
        self.rare.add(&profile(history.profile));
        for name in &answers.corners {
            self.add(name);
        }
    }

    fn missed_minimums(&self) -> Vec<String> {
        let reached = self.never.rows().iter().filter(|(_, count)| *count > 0);
        let mut messages: Vec<String> = reached
            .map(|(name, count)| format!("{name} is {count}, but no history should reach it"))
            .collect();
        if self.calls >= MINIMUMS_FROM {
            messages.extend(missed(self.corners.rows(), LEAST));
            messages.extend(missed(self.rare.rows(), LEAST_OF_RARE));
        }
        messages
    }
}

impl fmt::Display for Counts {
    fn fmt(&self, f: &mut fmt::Formatter<'_>) -> fmt::Result {
        writeln!(f, "histories {}", self.histories)?;
        writeln!(f, "calls {}", self.calls)?;
        writeln!(f, "events {}", self.events)?;
        write!(f, "{}{}{}", self.corners, self.rare, self.never)
    }
}

#[cfg(test)]
mod tests {
    use super::super::answer::answer;
    use super::super::line::parse;
    use super::*;
    use crate::subject::Counts as _;

    fn counts_of(text: &str) -> Counts {
        let history = parse(text).unwrap();
        let mut counts = Counts::default();
        counts.record(&history, &answer(&history));
        counts
    }

    const TEXT: &str = "256 2 1 7 0 0 0 256\n257 0 0 0 0\n258\n258\n258";

    #[test]
    fn the_calls_are_counted_in_their_corners() {
        let table = counts_of(TEXT).to_string();
        assert!(table.starts_with("histories 1\ncalls 5\nevents 1\nno_machine 0\n"));
        for line in [
            "begun_0 1",
            "handed_0 1",
            "handed_1 1",
            "replied_done 2",
            "refused_reply_done 1",
            "call_settled_0 2",
            "call_settled_1 1",
            "ended_in_1 1",
            "step_pair_0_0 1",
            "failed_at_0 0",
            "third_failure 0",
            "step_update_verified_window_open 0",
        ] {
            assert!(table.contains(&format!("\n{line}\n")), "{line}");
        }
    }

    #[test]
    fn few_calls_need_no_minimum() {
        assert!(counts_of(TEXT).missed_minimums().is_empty());
    }

    #[test]
    fn many_calls_must_reach_every_corner() {
        let mut counts = counts_of(TEXT);
        counts.calls = MINIMUMS_FROM;
        let required = counts.corners.rows().len() + counts.rare.rows().len();
        assert_eq!(counts.missed_minimums().len(), required);
    }

    #[test]
    fn a_corner_that_no_history_should_reach_is_a_failure() {
        for name in [
            "walk_at_an_isolated_one",
            "step_timeout_awaiting_isolated",
            "set_up_call_settled_over_8",
        ] {
            let mut counts = counts_of(TEXT);
            counts.add(name);
            let message = format!("{name} is 1, but no history should reach it");
            assert_eq!(counts.missed_minimums(), [message]);
        }
    }
}
