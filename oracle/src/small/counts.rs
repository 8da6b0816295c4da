//! What the walks have reached.

use std::fmt;

use super::Visit;
use super::chains::{MOST, max_retries};
use crate::histories::Answers;
use crate::histories::unreached::is_unreached;
use crate::steps::answer::answer;
use crate::steps::rows::{names, reached};
use crate::subject;
use crate::tally::Tally;

pub struct Counts {
    chains: u64,
    /// Chains with a max_retry.
    walks: u64,
    /// By the number of components, from 1.
    machines: [u64; MOST],
    dispatches: u64,
    settled: u64,
    calls: u64,
    /// Different single steps of a walk.
    steps: u64,
    depth: usize,
    rows: Tally,
}

impl Default for Counts {
    fn default() -> Self {
        Self {
            chains: 0,
            walks: 0,
            machines: [0; MOST],
            dispatches: 0,
            settled: 0,
            calls: 0,
            steps: 0,
            depth: 0,
            rows: Tally::new(names()),
        }
    }
}

impl Counts {
    /// The machines visited, by the number of components.
    pub fn machines(&self) -> [u64; MOST] {
        self.machines
    }

    pub fn add(&mut self, visit: &Visit) {
        let length = visit.entries.len();
        if visit.depth == 0 {
            self.walks += 1;
            self.chains += u64::from(visit.max_retry == max_retries(length)[0]);
        }
        self.machines[length - 1] += 1;
        self.dispatches += visit.dispatches;
        self.settled += visit.settled;
        self.calls += visit.history.calls.len() as u64;
        self.steps += visit.steps.len() as u64;
        self.depth = self.depth.max(visit.depth);
        for case in &visit.steps {
            for row in reached(case, &answer(case)) {
                self.rows.add(&row);
            }
        }
    }
}

impl subject::Counts<Visit, Answers> for Counts {
    fn record(&mut self, visit: &Visit, _: &Answers) {
        self.add(visit);
    }

    /// What no walk reaches is printed, and not a failure: many rows need
    /// longer chains. A failure is what no history should reach.
    fn missed_minimums(&self) -> Vec<String> {
        let rows = self.rows.rows().iter();
        rows.filter(|(row, count)| *count > 0 && is_unreached(row))
            .map(|(row, count)| format!("{row} is {count}, but no history should reach it"))
            .collect()
    }
}

impl fmt::Display for Counts {
    fn fmt(&self, f: &mut fmt::Formatter<'_>) -> fmt::Result {
        writeln!(f, "chains {}", self.chains)?;
        writeln!(f, "walks {}", self.walks)?;
        for (machines, length) in self.machines.iter().zip(1..) {
            writeln!(f, "machines_of_{length} {machines}")?;
        }
        writeln!(f, "dispatches {}", self.dispatches)?;
        writeln!(f, "events_settled {}", self.settled)?;
        writeln!(f, "calls {}", self.calls)?;
        writeln!(f, "steps {}", self.steps)?;
        writeln!(f, "greatest_depth {}", self.depth)?;
        let unreached = self.rows.rows().iter().filter(|(_, count)| *count == 0);
        for (row, _) in unreached {
            writeln!(f, "unreached {row}")?;
        }
        Ok(())
    }
}

#[cfg(test)]
mod tests {
    use super::*;
    use crate::subject::Counts as _;

    #[test]
    fn a_row_that_no_history_should_reach_is_a_failure() {
        let mut counts = Counts::default();
        assert!(counts.missed_minimums().is_empty());
        counts.rows.add("passed_pre_supervision_active_one_left");
        counts.rows.add("timeout_awaiting_isolated");
        let message = "timeout_awaiting_isolated is 1, but no history should reach it";
        assert_eq!(counts.missed_minimums(), [message]);
    }
}
