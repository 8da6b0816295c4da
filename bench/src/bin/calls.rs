//! The rounds of step calls that `crates/calls` makes, on the Rust: a boot,
//! updates and recoveries of 8 components. A step call is an event that begins,
//! or the answer to an effect. A program of its own: beside the runner of sheets
//! the source's generic code would be inlined otherwise in both.

use std::ffi::OsStr;
use std::process::ExitCode;

use openprot_orchestrator_sm::{
    ComponentAttrs, ComponentId, Effect, EffectError, Event, PowerOnResult,
};
use oracle::command::{number, with_arguments};
use oracle::lists::Entry;
use oracle::lists::answer::chain;
use oracle::sheets::text;
use oracle::steps::answer::Rust;

const USAGE: &str = "usage: calls UPDATES RECOVERIES";

const SIZE: usize = 8;

fn main() -> ExitCode {
    with_arguments("calls", |arguments| {
        run(arguments).map(|()| ExitCode::SUCCESS)
    })
}

fn run(arguments: &[&OsStr]) -> Result<(), String> {
    let [updates, recoveries] = arguments else {
        return Err(USAGE.into());
    };
    print!("{}", printed(number(updates)?, number(recoveries)?));
    Ok(())
}

/// A machine, and the step calls that it took so far.
struct Driven {
    machine: Rust,
    calls: u64,
}

impl Driven {
    fn new() -> Self {
        let chain = chain(&[0, 1, 2, 3, 4, 5, 6, 7].map(component)).expect("an accepted chain");
        Self {
            machine: Rust::new(chain, 3),
            calls: 0,
        }
    }

    fn drive(&mut self, event: Event) {
        self.calls += 1;
        self.machine.dispatch_with(event, |effect| {
            self.calls += 1;
            answer_to(effect)
        });
    }

    fn rounds(&mut self, updates: u64, recoveries: u64) {
        self.drive(Event::PowerGood(PowerOnResult::Provisioned));
        for round in 0..updates {
            self.drive(Event::UpdateRequest);
            self.drive(Event::UpdateVerified);
            self.drive(Event::BootConfirmed(subject(round)));
        }
        for round in 0..recoveries {
            self.drive(Event::CorruptionDetected(subject(round)));
        }
    }
}

fn id(position: usize) -> ComponentId {
    ComponentId::new(128 + position as u8)
}

/// The component that a round is about: each in turn.
fn subject(round: u64) -> ComponentId {
    id(round as usize % SIZE)
}

fn component(position: usize) -> Entry {
    let attrs = if position.is_multiple_of(2) {
        ComponentAttrs::active_required()
    } else {
        ComponentAttrs::passive_required()
    };
    (id(position), attrs)
}

fn answer_to(effect: Effect) -> Result<Option<Event>, EffectError> {
    Ok(match effect {
        Effect::VerifyFirmware(id) => Some(Event::VerificationPassed(id)),
        Effect::RecoverComponent { id, .. } => Some(Event::Restored(id)),
        _ => None,
    })
}

/// What `crates/calls` prints for so many rounds: the number of step calls, the
/// state, and the status of each component.
fn printed(updates: u64, recoveries: u64) -> String {
    let mut driven = Driven::new();
    driven.rounds(updates, recoveries);
    let Driven { machine, calls } = driven;
    let state = text::state(machine.state());
    let mut printed = format!("calls\t{calls}\nS\t{state}\n");
    for position in 0..SIZE {
        printed.push_str(&text::status(id(position), machine.status(position)));
    }
    printed
}

#[cfg(test)]
mod tests {
    use super::*;

    #[test]
    fn the_stored_output_of_the_program() {
        let folder = concat!(env!("CARGO_MANIFEST_DIR"), "/../crates/calls/");
        let read = |name| std::fs::read_to_string(format!("{folder}{name}")).unwrap();
        let stdin = read("stdin");
        let rounds: Vec<u64> = stdin
            .split_whitespace()
            .map(|n| n.parse().unwrap())
            .collect();
        assert_eq!(printed(rounds[0], rounds[1]), read("stdout"));
    }

    /// Else a round would do something else than the ones before it.
    #[test]
    fn every_round_ends_ready_and_takes_as_many_calls_as_the_first() {
        let mut driven = Driven::new();
        driven.rounds(0, 0);
        for round in 0..20 {
            let before = driven.calls;
            driven.drive(Event::UpdateRequest);
            driven.drive(Event::UpdateVerified);
            driven.drive(Event::BootConfirmed(subject(round)));
            assert_eq!(driven.calls - before, 7);
            driven.drive(Event::CorruptionDetected(subject(round)));
            assert_eq!(driven.calls - before, 7 + 33);
            assert_eq!(text::state(driven.machine.state()), "Ready");
        }
    }
}
