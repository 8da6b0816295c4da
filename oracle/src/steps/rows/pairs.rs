//! Pairs of state and event, ids in and outside the chain, and PowerGood.

use openprot_orchestrator_sm::{Event, PowerOnResult};

use super::super::numbers::{EVENTS, STATES};
use super::super::rules::{NAMING, POWER_ON_RESET};
use super::{EVENT_NAMES, Step, combine, either};

const POWER_ON_RESULTS: [&str; 3] = ["provisioned", "unprovisioned", "self_verification_failed"];

const ID: [&str; 2] = ["id_in_chain", "id_outside_chain"];

pub fn names() -> Vec<String> {
    let mut names = Vec::new();
    for state in 0..STATES {
        names.extend((0..EVENTS).map(|event| format!("pair_{state}_{event}")));
    }
    let naming = NAMING.map(|event| EVENT_NAMES[event]);
    names.extend(combine(&[&naming, &ID]));
    names.extend(combine(&[&["power_good"], &POWER_ON_RESULTS]));
    names
}

pub fn reached(step: &Step) -> Vec<String> {
    let mut rows = vec![format!("pair_{}_{}", step.state, step.event)];
    // An id matters only where the state has a rule for the event.
    if step.has_rule() && NAMING.contains(&step.event) {
        let place = either(step.named.is_some(), ID);
        rows.push(format!("{}_{place}", EVENT_NAMES[step.event]));
    }
    if let (POWER_ON_RESET, Event::PowerGood(result)) = (step.state, step.case.event) {
        let name = match result {
            PowerOnResult::Provisioned => POWER_ON_RESULTS[0],
            PowerOnResult::Unprovisioned => POWER_ON_RESULTS[1],
            PowerOnResult::SelfVerificationFailed => POWER_ON_RESULTS[2],
        };
        rows.push(format!("power_good_{name}"));
    }
    rows
}

#[cfg(test)]
mod tests {
    use super::super::tests::{reaches, rows_of};
    use super::*;

    #[test]
    fn there_are_126_pairs() {
        let names = names();
        let pairs = names.iter().filter(|name| name.starts_with("pair_"));
        assert_eq!(pairs.count(), 126);
    }

    #[test]
    fn an_id_counts_only_where_there_is_a_rule() {
        let ready = "2 1 7 0 0 0 256 3 256 1 0 0 0 1 1";
        reaches(
            &format!("{ready} 15 7 0 0"),
            "timeout_id",
            &["timeout_id_in_chain"],
        );
        reaches(
            &format!("{ready} 15 8 0 0"),
            "timeout_id",
            &["timeout_id_outside_chain"],
        );
        assert_eq!(rows_of(&format!("{ready} 11 8 0 0"))[0], "pair_3_11");
        reaches(&format!("{ready} 11 8 0 0"), "restored", &[]);
    }

    #[test]
    fn power_good_counts_only_before_power_on() {
        let line = |state| format!("2 1 7 0 0 0 256 {state} 256 0 0 0 0 0 0 0 2 0 0");
        let row = "power_good_self_verification_failed";
        reaches(&line(0), "power_good", &[row]);
        reaches(&line(1), "power_good", &[]);
    }
}
