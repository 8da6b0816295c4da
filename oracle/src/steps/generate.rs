//! Generated cases. Most chains are short and most events have a rule in the
//! state, so that most steps do something.

use openprot_orchestrator_sm::{ComponentId, Event, FailurePolicy, State, Status};

use super::numbers::{EVENTS, STATES, event, state, state_parts};
use super::rules::{
    AWAITING_READY, BOOT_FAILED, CORRUPTION_DETECTED, NAMING, POWER_GOOD, RECOVERING,
    RECOVERY_UNAVAILABLE, RESTORED, RULES, VERIFICATION_PASSED,
};
use super::{Case, Machine, position_of};
use crate::lists::generate::accepted;
use crate::lists::mutate::position;
use crate::lists::{Entry, LONGEST};
use crate::random::SplitMix64;

/// How often each state comes, by its number.
const STATE_WEIGHTS: [usize; STATES] = [4, 14, 14, 8, 8, 14, 1];

/// The events with the most tests in their rules; they come more often.
const FREQUENT_EVENTS: [usize; 5] = [
    VERIFICATION_PASSED,
    CORRUPTION_DETECTED,
    RESTORED,
    RECOVERY_UNAVAILABLE,
    BOOT_FAILED,
];

/// The number of the boot failure that asks for the policy.
pub const DEVICE_FATAL: u16 = 2;

/// Endless cases for a seed. The same seed gives the same cases.
pub fn cases(seed: u64) -> impl Iterator<Item = Case> {
    let mut random = SplitMix64::new(seed);
    std::iter::repeat_with(move || match random.below(400) {
        0 => large_cascade(&mut random),
        1 => release_of_the_last(&mut random),
        _ => any_case(&mut random),
    })
}

fn any_case(random: &mut SplitMix64) -> Case {
    let length = draw_length(random);
    let entries = accepted(random, length);
    let machine = draw_machine(random, &entries);
    Case {
        max_retry: draw_max_retry(random),
        event: draw_event(random, &entries, &machine),
        entries,
        machine,
    }
}

pub fn draw_machine(random: &mut SplitMix64, entries: &[Entry]) -> Machine {
    let mut machine = Machine {
        state: draw_state(random, entries),
        cursor: draw_cursor(random, entries.len()),
        window: random.one_in(2),
        statuses: draw_statuses(random, entries.len()),
    };
    // In a history the cursor of a walk is never at an isolated component, but
    // a machine can be set up so.
    if random.one_in(8)
        && let Some(status) = machine.statuses.get_mut(usize::from(machine.cursor))
    {
        status.isolated = true;
    }
    machine
}

fn draw_length(random: &mut SplitMix64) -> usize {
    match random.below(1_000) {
        0..=4 => LONGEST,
        5..=14 => random.between(200, LONGEST),
        15..=114 => random.between(7, 40),
        _ => random.between(1, 6),
    }
}

/// The longest chain in a state, with nothing isolated.
fn large_machine(random: &mut SplitMix64, state: State, cursor: u8) -> Machine {
    Machine {
        state,
        cursor,
        window: random.one_in(2),
        statuses: (0..LONGEST).map(|_| draw_status(random, 0)).collect(),
    }
}

/// The first component is Cascading and the event is about it, so that the step
/// has about as many effects as there can be.
fn large_cascade(random: &mut SplitMix64) -> Case {
    let mut entries = accepted(random, LONGEST);
    entries[0].1.failure_policy = FailurePolicy::Cascading;
    let first = entries[0].0;
    let (state, name) = random.pick(&[
        (State::PreSupervision, CORRUPTION_DETECTED),
        (State::AwaitingReady(None), BOOT_FAILED),
        (State::Updating, CORRUPTION_DETECTED),
        (State::Recovering(first), RECOVERY_UNAVAILABLE),
    ]);
    let cursor = draw_cursor(random, LONGEST);
    let mut machine = large_machine(random, state, cursor);
    machine.statuses[0].awaiting_boot = true;
    Case {
        max_retry: draw_max_retry(random),
        event: named_event(name, first, draw_checkpoint(random), DEVICE_FATAL),
        entries,
        machine,
    }
}

/// The last component of the longest chain passes its verification.
fn release_of_the_last(random: &mut SplitMix64) -> Case {
    let entries = accepted(random, LONGEST);
    let (last, _) = entries[LONGEST - 1];
    let state = random.pick(&[State::PreSupervision, State::AwaitingReady(Some(last))]);
    Case {
        max_retry: draw_max_retry(random),
        machine: large_machine(random, state, LONGEST as u8 - 1),
        event: Event::VerificationPassed(last),
        entries,
    }
}

/// Any state; an id that it carries is one of the chain's.
fn draw_state(random: &mut SplitMix64, entries: &[Entry]) -> State {
    let number = random.weighted(&STATE_WEIGHTS);
    let id = entries[position(random, entries.len())].0;
    let carried = match number {
        AWAITING_READY => (!random.one_in(4)).then_some(id),
        RECOVERING => Some(id),
        _ => None,
    };
    state(number as u64, carried).expect("the id fits the state")
}

/// A position, or the length after the last one.
fn draw_cursor(random: &mut SplitMix64, length: usize) -> u8 {
    let cursor = if random.one_in(6) {
        length
    } else {
        position(random, length)
    };
    cursor as u8
}

/// One status for each component. What is drawn for all of them together keeps
/// chains with no isolated component, with all isolated and without retries
/// common.
pub fn draw_statuses(random: &mut SplitMix64, length: usize) -> Vec<Status> {
    let isolated_of_4 = random.pick(&[0, 0, 1, 1, 2, 3, 4]);
    let no_retries = random.one_in(3);
    let no_flags = random.one_in(4);
    let held = random.one_in(2);
    (0..length)
        .map(|_| {
            let mut status = draw_status(random, isolated_of_4);
            if no_retries {
                status.retry = 0;
            }
            // Isolated ones have no flags, except in the odd machines.
            if no_flags || (held && status.isolated) {
                status.awaiting_boot = false;
                status.released = false;
            }
            status
        })
        .collect()
}

/// Any status, isolated so many times out of 4. The flags do not depend on each
/// other, so that machines that no history reaches come too.
fn draw_status(random: &mut SplitMix64, isolated_of_4: usize) -> Status {
    Status {
        isolated: random.below(4) < isolated_of_4,
        retry: match random.below(8) {
            0..=3 => 0,
            4 | 5 => random.between(1, 3) as u8,
            6 => random.pick(&[254, 255]),
            _ => random.byte(),
        },
        awaiting_boot: random.one_in(2),
        released: random.one_in(2),
    }
}

pub fn draw_max_retry(random: &mut SplitMix64) -> u8 {
    match random.below(8) {
        0..=4 => random.below(5) as u8,
        5 | 6 => u8::MAX,
        _ => random.byte(),
    }
}

pub fn draw_event(random: &mut SplitMix64, entries: &[Entry], machine: &Machine) -> Event {
    let (number, payload) = state_parts(machine.state);
    let name = draw_event_number(random, number.into());
    if NAMING.contains(&name) {
        let id = draw_id(random, entries, machine.cursor, payload);
        let kind = random.pick(&[0, 1, DEVICE_FATAL, DEVICE_FATAL]);
        named_event(name, id, draw_checkpoint(random), kind)
    } else {
        let result = if name == POWER_GOOD {
            random.below(3)
        } else {
            0
        };
        event([name as u16, result as u16, 0, 0]).expect("an event without an id")
    }
}

/// The number of an event, most often one that the state has a rule for.
fn draw_event_number(random: &mut SplitMix64, state: usize) -> usize {
    let rules = RULES[state];
    let frequent: Vec<usize> = FREQUENT_EVENTS
        .into_iter()
        .filter(|number| rules.contains(number))
        .collect();
    match random.below(6) {
        1..=3 if !frequent.is_empty() => random.pick(&frequent),
        1.. if !rules.is_empty() => random.pick(rules),
        _ => random.below(EVENTS),
    }
}

/// The event `name` about `id`; the two values are left out unless it has them.
pub fn named_event(name: usize, id: ComponentId, checkpoint: u16, kind: u16) -> Event {
    let values = if name == BOOT_FAILED {
        [checkpoint, kind]
    } else {
        [0, 0]
    };
    let fields = [name as u16, id.get().into(), values[0], values[1]];
    event(fields).expect("an event with an id")
}

/// Most often the cursor's component or the state's, sometimes one outside.
fn draw_id(
    random: &mut SplitMix64,
    entries: &[Entry],
    cursor: u8,
    payload: Option<ComponentId>,
) -> ComponentId {
    let any = entries[position(random, entries.len())].0;
    let at_cursor = entries.get(usize::from(cursor)).map(|(id, _)| *id);
    match random.below(12) {
        0 => outside(random, entries),
        1..=4 => at_cursor.unwrap_or(any),
        5..=8 => payload.unwrap_or(any),
        _ => any,
    }
}

/// An id that is not in the chain. A chain never has all 256.
pub fn outside(random: &mut SplitMix64, entries: &[Entry]) -> ComponentId {
    let absent: Vec<ComponentId> = (0..=u8::MAX)
        .map(ComponentId::new)
        .filter(|id| position_of(entries, *id).is_none())
        .collect();
    random.pick(&absent)
}

pub fn draw_checkpoint(random: &mut SplitMix64) -> u16 {
    match random.below(4) {
        0 => random.next_u64() as u16,
        1 => random.pick(&[0, u16::MAX]),
        _ => random.below(10) as u16,
    }
}

#[cfg(test)]
mod tests {
    use super::super::line::parse;
    use super::*;

    #[test]
    fn the_seed_decides() {
        let first: Vec<Case> = cases(7).take(50).collect();
        let again: Vec<Case> = cases(7).take(50).collect();
        let other: Vec<Case> = cases(8).take(50).collect();
        assert_eq!(first, again);
        assert_ne!(first, other);
    }

    #[test]
    fn generated_cases_read_back() {
        for case in cases(3).take(2_000) {
            assert_eq!(parse(&case.to_string()), Ok(case));
        }
    }

    #[test]
    fn an_id_outside_is_outside() {
        let mut random = SplitMix64::new(4);
        for length in [1, 6, 254, 255] {
            let entries = accepted(&mut random, length);
            let id = outside(&mut random, &entries);
            assert_eq!(position_of(&entries, id), None);
        }
    }
}
