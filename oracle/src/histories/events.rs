//! The events of generated histories.

use openprot_orchestrator_sm::{ComponentId, Effect, Event, FailurePolicy, PowerOnResult, State};

use crate::lists::Entry;
use crate::lists::mutate::position;
use crate::random::SplitMix64;
use crate::steps::Machine;
use crate::steps::generate::{DEVICE_FATAL, draw_checkpoint, draw_event, named_event, outside};
use crate::steps::numbers::{EVENTS, event, state_parts};
use crate::steps::rules::{BOOT_FAILED, NAMING, POWER_GOOD, RULES};

/// Any of the events, about any component of the chain or one outside.
pub fn any_event(random: &mut SplitMix64, entries: &[Entry]) -> Event {
    let name = random.below(EVENTS);
    if NAMING.contains(&name) {
        let id = if random.one_in(8) {
            outside(random, entries)
        } else {
            entries[position(random, entries.len())].0
        };
        let checkpoint = draw_checkpoint(random);
        return named_event(name, id, checkpoint, random.below(3) as u16);
    }
    let result = if name == POWER_GOOD {
        random.below(3)
    } else {
        0
    };
    event([name as u16, result as u16, 0, 0]).expect("an event without an id")
}

/// An event that leads on from the machine's state, or one that the state has a
/// rule for.
pub fn apt_event(random: &mut SplitMix64, entries: &[Entry], machine: &Machine) -> Event {
    let at_cursor = entries.get(usize::from(machine.cursor)).map(|(id, _)| *id);
    let any = entries[random.below(entries.len())].0;
    let required = first_id(entries, |(_, attrs), _| {
        attrs.failure_policy == FailurePolicy::Required
    });
    let booting = first_id(entries, |_, place| machine.statuses[place].awaiting_boot);
    let led = match (machine.state, random.below(10), at_cursor) {
        (State::PowerOnReset, 0..=5, _) => Some(Event::PowerGood(PowerOnResult::Provisioned)),
        (State::PreSupervision | State::AwaitingReady(_), 0..=4, Some(id)) => {
            Some(Event::VerificationPassed(id))
        }
        (State::PreSupervision, 5, Some(id)) => Some(Event::VerificationFailed(id)),
        (State::AwaitingReady(Some(id)), 5..=8, _) => Some(Event::ComponentReady(id)),
        (State::AwaitingReady(_) | State::Recovering(_), 9, _) => Some(Event::UpdateRequest),
        (State::Ready, 0..=3, _) => Some(Event::UpdateRequest),
        (State::Ready, 4, _) => Some(Event::BootConfirmed(any)),
        (State::Ready, 5, _) => Some(Event::AttestationChallenge),
        (State::Ready, 6, _) => Some(fatal(random, booting.unwrap_or(any))),
        (State::Updating, 0 | 1, _) => Some(Event::UpdateVerified),
        (State::Updating, 2 | 3, _) => Some(Event::UpdateRejected),
        (State::Updating, 4 | 5, _) => Some(Event::CorruptionDetected(required.unwrap_or(any))),
        (State::Updating, 6 | 7, _) => Some(Event::UpdateRequest),
        (State::Updating, 8, _) => Some(fatal(random, booting.unwrap_or(any))),
        (State::Recovering(id), 0..=3, _) => Some(Event::Restored(id)),
        (State::Recovering(id), 4, _) => Some(Event::RecoveryUnavailable(id)),
        _ => None,
    };
    led.unwrap_or_else(|| draw_event(random, entries, machine))
}

/// A boot failure that asks for the component's policy.
pub fn fatal(random: &mut SplitMix64, id: ComponentId) -> Event {
    let checkpoint = draw_checkpoint(random);
    named_event(BOOT_FAILED, id, checkpoint, DEVICE_FATAL)
}

/// An event that the state has a rule for, about an id outside the chain.
pub fn outside_event(random: &mut SplitMix64, entries: &[Entry], state: State) -> Event {
    let rules = RULES[usize::from(state_parts(state).0)];
    let naming: Vec<usize> = NAMING
        .into_iter()
        .filter(|name| rules.contains(name))
        .collect();
    if naming.is_empty() {
        return any_event(random, entries);
    }
    let (name, id) = (random.pick(&naming), outside(random, entries));
    let checkpoint = draw_checkpoint(random);
    named_event(name, id, checkpoint, random.below(3) as u16)
}

/// The first component that the test holds for.
fn first_id(entries: &[Entry], test: impl Fn(&Entry, usize) -> bool) -> Option<ComponentId> {
    let place = (0..entries.len()).find(|place| test(&entries[*place], *place));
    place.map(|place| entries[place].0)
}

/// The report that an effect asks for, mostly a good one.
pub fn report(random: &mut SplitMix64, effect: Effect) -> Option<Event> {
    let good = !random.one_in(4);
    match effect {
        Effect::VerifyFirmware(id) if good => Some(Event::VerificationPassed(id)),
        Effect::VerifyFirmware(id) => Some(Event::VerificationFailed(id)),
        Effect::ReleaseReset(id) if good => {
            Some(random.pick(&[Event::Booted(id), Event::ComponentReady(id)]))
        }
        Effect::ReleaseReset(id) => {
            let (checkpoint, kind) = (draw_checkpoint(random), random.below(3) as u16);
            let failed = named_event(BOOT_FAILED, id, checkpoint, kind);
            Some(random.pick(&[failed, Event::Timeout(id)]))
        }
        Effect::RecoverComponent { id, .. } if good => Some(Event::Restored(id)),
        Effect::RecoverComponent { id, .. } => {
            Some(random.pick(&[Event::RecoveryUnavailable(id), Event::RecoveryFailed]))
        }
        Effect::StageUpdate if good => Some(Event::UpdateVerified),
        Effect::StageUpdate => Some(Event::UpdateRejected),
        Effect::ActivateUpdate => Some(Event::CommitTimeout).filter(|_| !good),
        _ => None,
    }
}

/// An event that PreSupervision has no rule for.
pub fn inapt_event(random: &mut SplitMix64, entries: &[Entry]) -> Event {
    let (id, _) = entries[position(random, entries.len())];
    random.pick(&[
        Event::PowerGood(PowerOnResult::Provisioned),
        Event::ComponentReady(id),
        Event::AttestationChallenge,
        Event::UpdateRequest,
        Event::UpdateVerified,
        Event::UpdateRejected,
        Event::BootConfirmed(id),
        Event::RecoveryFailed,
        Event::CommitTimeout,
    ])
}
