//! Entering a state, and the commit window.

use super::super::numbers::state_parts;
use super::super::position_of;
use super::super::rules::*;
use super::{
    AWAITING, EVENT_NAMES, ISOLATED, LEFT, RETRY, STATE_NAMES, Step, WINDOW, combine, either,
};

const ANY_RELEASED: [&str; 2] = ["some_released", "none_released"];
const RELEASED: [&str; 2] = ["released", "not_released"];

/// The events that lead to Ready and to Recovering.
const TO_READY: [usize; 6] = [
    VERIFICATION_PASSED,
    COMPONENT_READY,
    UPDATE_VERIFIED,
    UPDATE_REJECTED,
    CORRUPTION_DETECTED,
    BOOT_FAILED,
];
const TO_RECOVERING: [usize; 4] = [
    VERIFICATION_FAILED,
    CORRUPTION_DETECTED,
    BOOT_FAILED,
    TIMEOUT,
];

/// Machines on which holding and walking again could go wrong.
const ODD_WALKS: [&str; 3] = [
    "isolated_released",
    "awaiting_boot_not_released",
    "first_isolated",
];

/// The events whose rule reads or sets the commit window, with their state.
const WINDOW_EVENTS: [(usize, usize); 3] = [
    (READY, COMMIT_TIMEOUT),
    (UPDATING, UPDATE_VERIFIED),
    (UPDATING, UPDATE_REJECTED),
];

pub fn names() -> Vec<String> {
    let to_ready = TO_READY.map(|event| EVENT_NAMES[event]);
    let to_recovering = TO_RECOVERING.map(|event| EVENT_NAMES[event]);
    let window_events = WINDOW_EVENTS.map(|(_, event)| EVENT_NAMES[event]);
    [
        combine(&[&["entered"], &STATE_NAMES[1..], &WINDOW]),
        combine(&[&["entered_walk"], &ANY_RELEASED]),
        combine(&[&["entered_walk"], &LEFT]),
        combine(&[&["entered_walk"], &ODD_WALKS]),
        combine(&[&["entered_ready_by"], &to_ready, &RETRY]),
        combine(&[&["entered_recovering_by"], &to_recovering, &RETRY]),
        combine(&[&["entered_recovering"], &RELEASED, &AWAITING]),
        combine(&[&window_events, &WINDOW]),
        combine(&[&["boot_confirmed"], &WINDOW, &ISOLATED]),
    ]
    .concat()
}

pub fn reached(step: &Step) -> Vec<String> {
    let window = either(step.case.machine.window, WINDOW);
    let mut rows = Vec::new();
    if let Some(state) = entered(step) {
        rows.push(format!("entered_{}_{window}", STATE_NAMES[state]));
        match state {
            PRE_SUPERVISION => rows.extend(walk(step)),
            READY => rows.push(ready(step)),
            RECOVERING => rows.extend(recovering(step)),
            _ => {}
        }
    }
    if WINDOW_EVENTS.contains(&(step.state, step.event)) {
        rows.push(format!("{}_{window}", EVENT_NAMES[step.event]));
    }
    if let Some(position) = step.about(BOOT_CONFIRMED) {
        let isolated = either(step.before(position).isolated, ISOLATED);
        rows.push(format!("boot_confirmed_{window}_{isolated}"));
    }
    rows
}

/// The state that the step enters. Recovering may be entered from itself.
fn entered(step: &Step) -> Option<usize> {
    let after = usize::from(state_parts(step.answer.machine.state).0);
    let changed = step.answer.machine.state != step.case.machine.state;
    (changed || step.recovers()).then_some(after)
}

/// The walk starts with the statuses that exhaustion left: it took the flags
/// of the components that it isolated.
fn walk(step: &Step) -> Vec<String> {
    let kept: Vec<_> = (0..step.length())
        .filter(|position| !step.newly_isolated(*position))
        .map(|position| step.before(position))
        .collect();
    let released = kept.iter().any(|status| status.released);
    let one_left = (0..step.length()).any(|position| !step.after(position).isolated);
    let odd = [
        kept.iter().any(|s| s.isolated && s.released),
        kept.iter().any(|s| s.awaiting_boot && !s.released),
        step.after(0).isolated && one_left,
    ];
    let mut words = vec![either(released, ANY_RELEASED), either(one_left, LEFT)];
    words.extend(ODD_WALKS.iter().zip(odd).filter(|w| w.1).map(|w| *w.0));
    words
        .into_iter()
        .map(|word| format!("entered_walk_{word}"))
        .collect()
}

fn ready(step: &Step) -> String {
    let statuses = &step.case.machine.statuses;
    let retry = either(statuses.iter().any(|status| status.retry > 0), RETRY);
    format!("entered_ready_by_{}_{retry}", EVENT_NAMES[step.event])
}

fn recovering(step: &Step) -> Vec<String> {
    let carried = state_parts(step.answer.machine.state).1;
    let position = carried.and_then(|id| position_of(&step.case.entries, id));
    let before = step.before(position.expect("recovery of a component"));
    let retry = either(before.retry > 0, RETRY);
    let released = either(before.released, RELEASED);
    let awaiting = either(before.awaiting_boot, AWAITING);
    vec![
        format!("entered_recovering_by_{}_{retry}", EVENT_NAMES[step.event]),
        format!("entered_recovering_{released}_{awaiting}"),
    ]
}

#[cfg(test)]
mod tests {
    use super::super::tests::reaches;

    /// Two components without dependencies, the first Required and the second
    /// Isolable.
    fn line(machine: &str, statuses: &str, event: &str) -> String {
        format!("0 2 1 0 0 0 256 2 0 1 0 256 {machine} {statuses} {event}")
    }

    #[test]
    fn entering_the_walk() {
        let clean = line("0 256 0 0", "0 0 0 0 0 0 0 0", "0 0 0 0");
        reaches(
            &clean,
            "entered",
            &[
                "entered_pre_supervision_window_closed",
                "entered_walk_none_released",
                "entered_walk_one_left",
            ],
        );
        let odd = line("0 256 0 1", "1 0 0 1 0 0 1 0", "0 0 0 0");
        reaches(
            &odd,
            "entered",
            &[
                "entered_pre_supervision_window_open",
                "entered_walk_some_released",
                "entered_walk_one_left",
                "entered_walk_isolated_released",
                "entered_walk_awaiting_boot_not_released",
                "entered_walk_first_isolated",
            ],
        );
        // Exhaustion isolates the second one, which is no longer released then.
        let none_left = line("5 2 0 0", "1 0 0 0 0 0 0 1", "12 2 0 0");
        reaches(
            &none_left,
            "entered_walk",
            &["entered_walk_none_released", "entered_walk_none_left"],
        );
    }

    #[test]
    fn entering_ready() {
        for (retry, row) in [(0, "retry_0"), (1, "retry_above_0")] {
            let statuses = format!("0 0 0 0 0 {retry} 0 0");
            let line = line("2 1 2 0", &statuses, "3 1 0 0");
            reaches(
                &line,
                "entered",
                &[
                    "entered_ready_window_closed",
                    &format!("entered_ready_by_component_ready_{row}"),
                ],
            );
        }
    }

    #[test]
    fn entering_recovering_again() {
        let line = line("5 1 0 1", "0 2 1 1 0 0 0 0", "15 1 0 0");
        reaches(
            &line,
            "entered",
            &[
                "entered_recovering_window_open",
                "entered_recovering_by_timeout_retry_above_0",
                "entered_recovering_released_awaiting_boot",
            ],
        );
    }

    #[test]
    fn the_commit_window() {
        let statuses = "0 0 0 0 1 0 0 0";
        let timeout = line("3 256 2 1", statuses, "16 0 0 0");
        reaches(&timeout, "commit_timeout", &["commit_timeout_window_open"]);
        let elsewhere = line("4 256 2 1", statuses, "16 0 0 0");
        reaches(&elsewhere, "commit_timeout", &[]);
        let confirmed = line("3 256 2 0", statuses, "9 2 0 0");
        let row = "boot_confirmed_window_closed_isolated";
        reaches(&confirmed, "boot_confirmed_w", &[row]);
        let rejected = line("4 256 2 1", statuses, "8 0 0 0");
        reaches(
            &rejected,
            "update_rejected",
            &["update_rejected_window_open"],
        );
    }
}
