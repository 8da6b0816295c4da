//! What a comparison has reached: a count for each row of `rows`.

use std::fmt;

use super::rows::{names, reached};
use super::{Answer, Case};
use crate::subject::{self, MINIMUMS_FROM};
use crate::tally::{Tally, missed};

pub struct Counts {
    steps: u64,
    rows: Tally,
}

impl Default for Counts {
    fn default() -> Self {
        Self {
            steps: 0,
            rows: Tally::new(names()),
        }
    }
}

impl subject::Counts<Case, Answer> for Counts {
    fn record(&mut self, case: &Case, answer: &Answer) {
        self.steps += 1;
        for name in reached(case, answer) {
            assert!(self.rows.add(&name), "{name} is not a row");
        }
    }

    fn missed_minimums(&self) -> Vec<String> {
        if self.steps < MINIMUMS_FROM {
            return Vec::new();
        }
        missed(self.rows.rows(), 1)
    }
}

impl fmt::Display for Counts {
    fn fmt(&self, f: &mut fmt::Formatter<'_>) -> fmt::Result {
        write!(f, "steps {}\n{}", self.steps, self.rows)
    }
}

#[cfg(test)]
mod tests {
    use super::super::answer::answer;
    use super::super::line::parse;
    use super::*;
    use crate::subject::Counts as _;

    fn counts_of(line: &str) -> Counts {
        let case = parse(line).unwrap();
        let mut counts = Counts::default();
        counts.record(&case, &answer(&case));
        counts
    }

    const LINE: &str = "0 1 7 0 0 0 256 0 256 0 0 0 0 0 0 0 1 0 0";

    #[test]
    fn a_step_is_counted_in_its_rows() {
        let table = counts_of(LINE).to_string();
        assert!(table.starts_with("steps 1\npair_0_0 1\npair_0_1 0\n"));
        assert!(table.contains("\npower_good_unprovisioned 1\n"));
        assert!(table.contains("\npower_good_provisioned 0\n"));
    }

    #[test]
    fn few_steps_need_no_minimum() {
        assert!(counts_of(LINE).missed_minimums().is_empty());
    }

    #[test]
    fn many_steps_must_reach_every_row() {
        let mut counts = counts_of(LINE);
        counts.steps = MINIMUMS_FROM;
        let missed = counts.missed_minimums();
        assert!(missed.contains(&"pair_0_1 is 0, needed: at least 1".to_string()));
        let rows = counts.rows.rows();
        let reached = rows.iter().filter(|(_, count)| *count > 0).count();
        assert_eq!(missed.len(), rows.len() - reached);
    }
}
