//! Small chains, machine by machine: all machines at rest that the events and
//! replies of `alphabet` reach from `new`, with each of those events begun from
//! each of them. Series of these events are covered at any length; other events
//! and replies are not.

pub mod alphabet;
pub mod chains;
pub mod command;
pub mod counts;
pub mod walk;

use std::fmt;

use crate::histories::answer::answer_noting;
use crate::histories::{Answers, Call, History};
use crate::lists::Entry;
use crate::steps::Case;
use crate::subject::Compared;
use chains::{chains, max_retries};
use walk::Walk;

/// One machine at rest, with everything that is begun from it.
pub struct Visit {
    /// `new` and the dispatches that lead to the machine, then those from it,
    /// each after a set-up where the machine at hand is another one.
    pub history: History,
    /// The single steps that no earlier visit to a machine of the same chain
    /// and max_retry has taken.
    pub steps: Vec<Case>,
    pub entries: Vec<Entry>,
    pub max_retry: u8,
    /// The dispatches that lead to the machine.
    pub depth: usize,
    /// The dispatches from it, and the events that they settle.
    pub dispatches: u64,
    pub settled: u64,
}

impl fmt::Display for Visit {
    fn fmt(&self, f: &mut fmt::Formatter<'_>) -> fmt::Result {
        write!(f, "{}", self.history)
    }
}

/// The chains that are walked: those of 1 to `components` components, and of
/// them one in `parts`, from the number `part` on.
#[derive(Clone, Copy, PartialEq, Eq, Debug)]
pub struct Choice {
    pub components: usize,
    pub part: usize,
    pub parts: usize,
}

/// All machines of these chains.
pub fn visits(choice: Choice) -> impl Iterator<Item = Visit> {
    let chains = chains(choice.components).into_iter();
    let chains = chains.skip(choice.part).step_by(choice.parts);
    let walks = |entries: Vec<Entry>| {
        let retries = max_retries(entries.len());
        retries
            .iter()
            .map(move |max_retry| Walk::new(entries.clone(), *max_retry))
    };
    chains.flat_map(walks).flatten()
}

/// Small chains, as a subject of comparison.
pub struct Small;

impl Compared for Small {
    type Case = Visit;
    type Answer = Answers;
    type Counts = counts::Counts;

    fn answer(visit: &Visit) -> Answers {
        answer_noting(&visit.history, false)
    }

    /// The first call, and those since the last set-up: what came before that
    /// was compared on its own lines.
    fn lines_up_to(visit: &Visit, index: usize) -> String {
        let calls = &visit.history.calls[..=index];
        let set_up = calls
            .iter()
            .rposition(|call| matches!(call, Call::SetUp(_)));
        let calls = match set_up {
            Some(place) => [&calls[..1], &calls[place..]].concat(),
            None => calls.to_vec(),
        };
        History::new(calls).to_string()
    }
}

#[cfg(test)]
mod tests {
    use super::*;
    use crate::compare::compare_answers;

    /// The first of all walks, and what a right port answers to it.
    fn first_walk() -> (Vec<Visit>, Vec<String>) {
        let visits: Vec<Visit> = Walk::new(chains(1).remove(0), 1).collect();
        let text: Vec<String> = visits
            .iter()
            .map(|v| Small::answer(v).to_string())
            .collect();
        let lines = text.join("\n").split('\n').map(String::from).collect();
        (visits, lines)
    }

    fn failures(visits: Vec<Visit>, port: &[String]) -> Vec<String> {
        let port = format!("{}\n", port.join("\n"));
        let outcome = compare_answers::<Small>(port.as_bytes(), visits).unwrap();
        assert_eq!(outcome.counts.machines(), [20, 0, 0]);
        outcome.failures
    }

    #[test]
    fn right_answers_agree() {
        let (visits, lines) = first_walk();
        assert!(failures(visits, &lines).is_empty());
    }

    /// The component passes, its release fails, and the port does not lock.
    #[test]
    fn a_wrong_answer_is_found_and_its_calls_are_named() {
        let (visits, mut lines) = first_walk();
        let failed = ["261 1 256 0 0 0 0 0 0", "257 1 9 0 0", "260", "258"];
        let calls = visits[1].history.calls.iter().map(Call::to_string);
        let calls: Vec<String> = calls.collect();
        let place = calls.windows(4).position(|some| some == failed);
        let line = visits[0].history.calls.len() + place.unwrap() + 3;
        let right = "0 18 0 0 0 6 256 1 0 0 0 0 0 0 0 0 1 1";
        let wrong = "0 18 0 0 0 3 256 1 0 0 0 0 0 0 0 0 1 1";
        assert_eq!(lines[line], right);
        lines[line] = wrong.into();
        let asked = format!("256 1 1 9 0 0 5 256\n{}", failed.join("\n"));
        let message = format!("case {asked}\noracle {right}\nport \"{wrong}\\n\"");
        assert_eq!(failures(visits, &lines), [message]);
    }

    #[test]
    fn a_line_too_few_is_found() {
        let (visits, mut lines) = first_walk();
        lines.pop();
        assert_eq!(failures(visits, &lines), ["the port printed too few lines"]);
    }

    #[test]
    fn every_chain_of_one_is_walked_with_each_max_retry() {
        let mut counts = counts::Counts::default();
        let choice = Choice {
            components: 1,
            part: 0,
            parts: 1,
        };
        visits(choice).for_each(|visit| counts.add(&visit));
        let table = counts.to_string();
        assert!(table.starts_with("chains 6\nwalks 18\nmachines_of_1 450\nmachines_of_2 0\n"));
        assert!(table.contains("\nunreached passed_pre_supervision_elsewhere\n"));
        assert!(!table.contains("passed_pre_supervision_active_none_left"));
    }
}
