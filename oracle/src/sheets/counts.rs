//! What a comparison of the programs has reached.

use std::fmt;

use super::damage::DAMAGES;
use super::generate::{Case, sources};
use super::record::{Moment, OK_AT_THE_END, OK_BEFORE_AN_EVENT, Recording};
use super::{PROGRAM_BYTES, PROGRAM_LIMIT};
use crate::histories::corners;
use crate::subject;
use crate::tally::{Tally, missed};

/// From this many sheets on, a comparison must reach each row so often, and each
/// of the rare ones.
const MINIMUMS_FROM: u64 = 20_000;
const LEAST: u64 = 5;
const LEAST_OF_RARE: u64 = 1;

/// Corners that step calls reach and sheets do not.
const CALLS_ALONE: [&str; 6] = [
    "no_machine",
    "new_accepted",
    "new_refused",
    "one_step_between_calls",
    "dispatch_left_unfinished",
    "refused_begin",
];

/// A sheet that the programs take has too few bytes for so many events.
const NEVER: &str = "number_9";

pub struct Counts {
    sheets: u64,
    events: u64,
    rows: Tally,
    rare: Tally,
    never: Tally,
}

/// The rows that a comparison has to reach.
pub fn names() -> Vec<String> {
    let mut names: Vec<String> = (0..=8).map(|number| format!("number_{number}")).collect();
    names.extend(["bad_line_1", "bad_line_2", "bad_line_later"].map(String::from));
    names.extend(["X", "S", "T"].map(|kind| format!("no_room_for_{kind}")));
    names.extend(sources().iter().map(|source| format!("made_from_{source}")));
    names.extend(DAMAGES.map(|(name, _)| format!("damaged_{name}")));
    names.extend([OK_BEFORE_AN_EVENT, OK_AT_THE_END].map(String::from));
    let corners = corners::names().into_iter();
    names.extend(corners.filter(|name| !CALLS_ALONE.contains(&name.as_str())));
    names
}

/// What no sheet reaches.
fn never_names() -> Vec<String> {
    let mut names = corners::never_names();
    names.push(NEVER.into());
    names
}

impl Default for Counts {
    fn default() -> Self {
        Self {
            sheets: 0,
            events: 0,
            rows: Tally::new(names()),
            rare: Tally::new(corners::rare_names()),
            never: Tally::new(never_names()),
        }
    }
}

/// The names under which a case and its recording are counted.
pub fn reached(case: &Case, recording: &Recording) -> Vec<String> {
    let mut names = vec![of_source(case.source)];
    names.extend(of_refusal(recording));
    // Past a stop the programs reach no corner.
    if recording.answer().refusal.number != 8 {
        let corners = recording.corners.iter();
        let corners = corners.filter(|name| !CALLS_ALONE.contains(&name.as_str()));
        names.extend(corners.cloned());
    }
    names
}

/// A case is made from one of the sources, or damaged.
fn of_source(source: &str) -> String {
    let prefix = if sources().contains(&source) {
        "made_from"
    } else {
        "damaged"
    };
    format!("{prefix}_{source}")
}

fn of_refusal(recording: &Recording) -> Vec<String> {
    let (answer, place) = recording.stopped(PROGRAM_BYTES, PROGRAM_LIMIT);
    let number = answer.refusal.number;
    let mut names = vec![format!("number_{number}")];
    match (number, answer.refusal.place) {
        (1, 1) => names.push("bad_line_1".into()),
        (1, 2) => names.push("bad_line_2".into()),
        (1, 3..) => names.push("bad_line_later".into()),
        (8, _) => {
            if let Moment::Line(line) = &recording.moments[place] {
                names.push(format!("no_room_for_{}", &line[..1]));
            }
        }
        _ => {}
    }
    names
}

impl subject::Counts<Case, Recording> for Counts {
    fn record(&mut self, case: &Case, recording: &Recording) {
        self.sheets += 1;
        self.events += recording.answer().settled;
        for name in reached(case, recording) {
            let added = [&mut self.rows, &mut self.rare, &mut self.never].map(|t| t.add(&name));
            assert!(added.contains(&true), "{name} is not a row");
        }
    }

    fn missed_minimums(&self) -> Vec<String> {
        let reached = self.never.rows().iter().filter(|(_, count)| *count > 0);
        let mut messages: Vec<String> = reached
            .map(|(name, count)| format!("{name} is {count}, but cannot be"))
            .collect();
        if self.sheets >= MINIMUMS_FROM {
            messages.extend(missed(self.rows.rows(), LEAST));
            messages.extend(missed(self.rare.rows(), LEAST_OF_RARE));
        }
        messages
    }
}

impl fmt::Display for Counts {
    fn fmt(&self, f: &mut fmt::Formatter<'_>) -> fmt::Result {
        writeln!(f, "sheets {}", self.sheets)?;
        writeln!(f, "events {}", self.events)?;
        write!(f, "{}{}{}", self.rows, self.rare, self.never)
    }
}

#[cfg(test)]
mod tests {
    use super::*;
    use crate::subject::Counts as _;

    fn counts_of(text: &str) -> Counts {
        let mut counts = Counts::default();
        let case = Case {
            text: text.into(),
            source: sources()[0],
        };
        counts.record(&case, &Recording::of_input(&case.text));
        counts
    }

    const SHEET: &str = "B\t2\nC\t7\tActive\tRequired\t0\t-\nE\tPowerGood\tProvisioned\nR\tok\n";

    #[test]
    fn a_sheet_is_counted_in_its_rows() {
        let table = counts_of(SHEET).to_string();
        assert!(table.starts_with("sheets 1\nevents 1\nnumber_0 1\nnumber_1 0\n"));
        for line in [
            "made_from_small_chains 1",
            "answered_ok_at_the_end 1",
            "answered_ok_before_an_E_line 0",
            "begun_0 1",
            "handed_0 1",
            "handed_1 1",
            "replied_done 2",
            "ended_in_1 1",
            "step_pair_0_0 1",
        ] {
            assert!(table.contains(&format!("\n{line}\n")), "{line}");
        }
        let table = counts_of("B\t2\n\n").to_string();
        assert!(table.contains("\nnumber_1 1\n") && table.contains("\nbad_line_2 1\n"));
    }

    #[test]
    fn many_sheets_must_reach_every_row() {
        let mut counts = counts_of(SHEET);
        assert!(counts.missed_minimums().is_empty());
        counts.sheets = MINIMUMS_FROM;
        let rare = counts.rare.rows();
        let unreached = rare.iter().filter(|(_, count)| *count == 0).count();
        assert!(0 < unreached && unreached < rare.len());
        assert_eq!(counts.missed_minimums().len(), names().len() + unreached);
    }

    #[test]
    fn a_limit_that_cannot_be_met_is_a_failure() {
        let mut counts = counts_of(SHEET);
        counts.never.add(NEVER);
        assert_eq!(counts.missed_minimums(), ["number_9 is 1, but cannot be"]);
    }
}
