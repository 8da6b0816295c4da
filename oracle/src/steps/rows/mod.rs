//! The rows that a comparison counts: every pair of state and event, both
//! outcomes of every test in section 3 of document 01, and sizes. A step's rows
//! are worked out from the case and the Rust's answer, never from the port.

pub mod cascade;
pub mod entry;
pub mod failure;
pub mod pairs;
pub mod recovery;
pub mod size;
pub mod walk;

use openprot_orchestrator_sm::{ComponentId, Effect, FailurePolicy, Status};

use super::numbers::{event_fields, state_parts};
use super::rules::{NAMING, RULES};
use super::{Answer, Case, position_of};

/// The states' names in rows, by number.
const STATE_NAMES: [&str; 7] = [
    "power_on_reset",
    "pre_supervision",
    "awaiting_ready",
    "ready",
    "updating",
    "recovering",
    "locked",
];

/// The states with rules for a component's failure; the first two walk.
const FAILURE_STATES: [&str; 5] = [
    "pre_supervision",
    "awaiting_ready",
    "ready",
    "updating",
    "recovering",
];

/// The events' names in rows, by number.
const EVENT_NAMES: [&str; 18] = [
    "power_good",
    "verification_passed",
    "verification_failed",
    "component_ready",
    "booted",
    "attestation_challenge",
    "update_request",
    "update_verified",
    "update_rejected",
    "boot_confirmed",
    "corruption_detected",
    "restored",
    "recovery_unavailable",
    "recovery_failed",
    "boot_failed",
    "timeout",
    "commit_timeout",
    "effect_failed",
];

const POLICIES: [&str; 3] = ["required", "isolable", "cascading"];
const ISOLATED: [&str; 2] = ["isolated", "not_isolated"];
const AWAITING: [&str; 2] = ["awaiting_boot", "not_awaiting_boot"];
const LEFT: [&str; 2] = ["one_left", "none_left"];
const RETRY: [&str; 2] = ["retry_above_0", "retry_0"];
const WINDOW: [&str; 2] = ["window_open", "window_closed"];

/// All rows in the order in which they are printed.
pub fn names() -> Vec<String> {
    [
        pairs::names(),
        walk::names(),
        failure::names(),
        cascade::names(),
        recovery::names(),
        entry::names(),
        size::names(),
    ]
    .concat()
}

/// The rows that a step reaches.
pub fn reached(case: &Case, answer: &Answer) -> Vec<String> {
    let step = Step::new(case, answer);
    [
        pairs::reached(&step),
        walk::reached(&step),
        failure::reached(&step),
        cascade::reached(&step),
        recovery::reached(&step),
        entry::reached(&step),
        size::reached(&step),
    ]
    .concat()
}

/// Every choice of one word from each part, the words joined by `_`.
fn combine(parts: &[&[&str]]) -> Vec<String> {
    let mut made = vec![String::new()];
    for words in parts {
        made = made
            .iter()
            .flat_map(|start| words.iter().map(move |word| join(start, word)))
            .collect();
    }
    made
}

fn join(start: &str, word: &str) -> String {
    if start.is_empty() {
        word.to_string()
    } else {
        format!("{start}_{word}")
    }
}

/// The first word if the flag is set, else the second.
fn either(flag: bool, words: [&'static str; 2]) -> &'static str {
    words[usize::from(!flag)]
}

/// A case with its answer, and what the rows ask of them.
pub struct Step<'a> {
    case: &'a Case,
    answer: &'a Answer,
    state: usize,
    event: usize,
    /// The position of the component that the event names.
    named: Option<usize>,
}

impl<'a> Step<'a> {
    fn new(case: &'a Case, answer: &'a Answer) -> Self {
        let [event, id, ..] = event_fields(&case.event);
        let event = usize::from(event);
        let named = if NAMING.contains(&event) {
            position_of(&case.entries, ComponentId::new(id as u8))
        } else {
            None
        };
        Self {
            case,
            answer,
            state: state_parts(case.machine.state).0.into(),
            event,
            named,
        }
    }

    fn has_rule(&self) -> bool {
        RULES[self.state].contains(&self.event)
    }

    /// The position that the event names, if it is this one, the state has a
    /// rule for it and the position is in the chain.
    fn about(&self, event: usize) -> Option<usize> {
        self.named
            .filter(|_| self.event == event && self.has_rule())
    }

    fn state_name(&self) -> &'static str {
        STATE_NAMES[self.state]
    }

    /// The id that the state carries before the step.
    fn carried(&self) -> Option<ComponentId> {
        state_parts(self.case.machine.state).1
    }

    fn id(&self, position: usize) -> ComponentId {
        self.case.entries[position].0
    }

    fn length(&self) -> usize {
        self.case.entries.len()
    }

    fn cursor(&self) -> usize {
        self.case.machine.cursor.into()
    }

    fn before(&self, position: usize) -> Status {
        self.case.machine.statuses[position]
    }

    fn after(&self, position: usize) -> Status {
        self.answer.machine.statuses[position]
    }

    fn policy(&self, position: usize) -> &'static str {
        match self.case.entries[position].1.failure_policy {
            FailurePolicy::Required => POLICIES[0],
            FailurePolicy::Isolable => POLICIES[1],
            FailurePolicy::Cascading => POLICIES[2],
        }
    }

    /// Whether the step took the component out of service.
    fn newly_isolated(&self, position: usize) -> bool {
        !self.before(position).isolated && self.after(position).isolated
    }

    /// Whether a component after the cursor is not isolated when the step ends.
    fn one_left(&self) -> bool {
        (self.cursor() + 1..self.length()).any(|position| !self.after(position).isolated)
    }

    /// Whether the step enters Recovering.
    fn recovers(&self) -> bool {
        let recover = |effect: &Effect| matches!(effect, Effect::RecoverComponent { .. });
        self.answer.effects.iter().any(recover)
    }
}

#[cfg(test)]
mod tests {
    use std::collections::HashSet;

    use super::super::answer::answer;
    use super::super::generate::cases;
    use super::super::line::parse;
    use super::*;

    /// The rows of a case that has its own line.
    pub fn rows_of(line: &str) -> Vec<String> {
        let case = parse(line).unwrap();
        reached(&case, &answer(&case))
    }

    /// Checks that the case reaches `rows` and no other row that starts with
    /// `start`.
    pub fn reaches(line: &str, start: &str, rows: &[&str]) {
        let mut found = rows_of(line);
        found.retain(|row| row.starts_with(start));
        assert_eq!(found, rows, "{line}");
    }

    #[test]
    fn every_row_has_its_own_name() {
        let names = names();
        let different: HashSet<&String> = names.iter().collect();
        assert_eq!(different.len(), names.len());
    }

    #[test]
    fn reached_rows_are_rows() {
        let names: HashSet<String> = names().into_iter().collect();
        for case in cases(5).take(3_000) {
            for row in reached(&case, &answer(&case)) {
                assert!(names.contains(&row), "{row}");
            }
        }
    }

    #[test]
    fn words_are_combined_in_order() {
        let made = combine(&[&["a"], &["b", "c"], &["d", "e"]]);
        assert_eq!(made, ["a_b_d", "a_b_e", "a_c_d", "a_c_e"]);
    }

    #[test]
    fn the_pairs_that_do_something_are_those_with_a_rule() {
        let mut found = HashSet::new();
        for case in cases(6).take(10_000) {
            let answer = answer(&case);
            if answer.machine != case.machine || !answer.effects.is_empty() {
                let step = Step::new(&case, &answer);
                found.insert((step.state, step.event));
            }
        }
        let pairs = |state: usize| RULES[state].iter().map(move |event| (state, *event));
        assert_eq!(found, (0..RULES.len()).flat_map(pairs).collect());
    }
}
