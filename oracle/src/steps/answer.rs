//! The oracle's answer to a case: the Rust's private `step` is run once.

use openprot_orchestrator_sm::Orchestrator;

use super::{Answer, Case, Machine};
use crate::lists::answer::chain;
use crate::lists::{CAPACITY, Entry};

/// The least size of the effect buffer that the Rust takes for this capacity.
const EFFECTS: usize = 2 * CAPACITY + 2;

pub type Rust = Orchestrator<CAPACITY, EFFECTS>;

/// The machine and the effects after one step.
pub fn answer(case: &Case) -> Answer {
    let mut rust = set_up(&case.entries, case.max_retry, &case.machine);
    let sink = rust.step_once(&case.event);
    Answer {
        machine: read(&rust),
        effects: sink.effects().to_vec(),
    }
}

/// The Rust's machine for an accepted chain, in this situation.
pub fn set_up(entries: &[Entry], max_retry: u8, machine: &Machine) -> Rust {
    Rust::from_parts(
        chain(entries).expect("an accepted chain"),
        max_retry,
        machine.state,
        machine.cursor,
        &machine.statuses,
        machine.window,
    )
}

/// What a step may change of the Rust's machine.
pub fn read(rust: &Rust) -> Machine {
    Machine {
        state: rust.state(),
        cursor: rust.cursor(),
        window: rust.pending_commit(),
        statuses: (0..rust.chain_len())
            .map(|position| rust.status(position))
            .collect(),
    }
}

#[cfg(test)]
mod tests {
    use super::super::line::parse;
    use super::*;

    fn answered(line: &str) -> String {
        answer(&parse(line).unwrap()).to_string()
    }

    /// Document 01: component 7 alone, Required, Recovering(7), retry 0,
    /// Restored(7).
    fn restored(max_retry: u8) -> String {
        answered(&format!(
            "{max_retry} 1 7 0 0 0 256 5 7 0 0 0 0 0 0 11 7 0 0"
        ))
    }

    #[test]
    fn max_retry_0_or_1_reports_and_emits() {
        for max_retry in [0, 1] {
            let expected = "5 7 0 0 0 1 0 0 2 12 7 0 0 17 13 0 0";
            assert_eq!(restored(max_retry), expected);
        }
    }

    #[test]
    fn max_retry_2_walks_again() {
        assert_eq!(restored(2), "1 256 0 0 0 1 0 0 2 0 7 0 0 1 7 0 0");
    }

    #[test]
    fn the_emitted_event_locks() {
        let line = "0 1 7 0 0 0 256 5 7 0 0 0 1 0 0 13 0 0 0";
        assert_eq!(answered(line), "6 256 0 0 0 1 0 0 1 16 0 0 0");
    }

    /// Document 01: component 1 Required and released, 2 Cascading, exhausted.
    #[test]
    fn an_exhausted_cascade_holds_the_rest_and_walks_again() {
        let line = "0 2 1 0 0 0 256 2 0 2 0 256 5 2 1 0 0 0 0 1 0 0 0 0 11 2 0 0";
        let machine = "1 256 0 0 0 0 0 0 1 0 0 0";
        let effects = "5 3 2 0 0 11 2 0 0 3 1 0 0 0 1 0 0 1 1 0 0";
        assert_eq!(answered(line), format!("{machine} {effects}"));
    }

    /// The sheet of document 01, section 5: component 7 alone, max_retry 2.
    #[test]
    fn the_two_events_of_the_sheet() {
        let head = "2 1 7 0 0 0 256";
        let power_good = answered(&format!("{head} 0 256 0 0 0 0 0 0 0 0 0 0"));
        assert_eq!(power_good, "1 256 0 0 0 0 0 0 2 0 7 0 0 1 7 0 0");
        let passed = answered(&format!("{head} 1 256 0 0 0 0 0 0 1 7 0 0"));
        assert_eq!(passed, "3 256 1 0 0 0 1 1 1 2 7 0 0");
    }

    #[test]
    fn an_id_outside_the_chain_does_nothing() {
        let machine = "2 7 1 1 0 3 1 1";
        let line = format!("2 1 7 0 0 0 256 {machine} 15 8 0 0");
        assert_eq!(answered(&line), format!("{machine} 0"));
    }
}
