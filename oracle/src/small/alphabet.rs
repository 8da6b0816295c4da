//! The events that are begun, and those that are fed back by a reply.

use openprot_orchestrator_sm::{ComponentId, Effect, Event, State};

use super::chains::{ABSENT, is_long};
use crate::lists::Entry;
use crate::steps::generate::named_event;
use crate::steps::numbers::{
    BOOT_FAILURE_KINDS, EVENTS, POWER_ON_RESULTS, component_of, event, state_parts,
};
use crate::steps::rules::{BOOT_FAILED, NAMING, POWER_GOOD, RULES};

/// The checkpoint of BootFailed, by the number of its kind. It only passes through.
const CHECKPOINTS: [u16; 3] = [0, 65_535, 300];

/// The events that are begun from a machine in this state. On chains of one and
/// two: all 18, with every id of the chain and one that it does not have, every
/// power-on result and every kind of a boot failure.
pub fn begun(entries: &[Entry], state: State) -> Vec<Event> {
    if is_long(entries.len()) {
        return ruled(entries, state);
    }
    let mut ids = ids(entries);
    ids.push(ComponentId::new(ABSENT));
    (0..EVENTS).flat_map(|name| of_name(name, &ids)).collect()
}

/// Of these the events that the state has a rule for, about components of the
/// chain.
fn ruled(entries: &[Entry], state: State) -> Vec<Event> {
    let ids = ids(entries);
    let rules = RULES[usize::from(state_parts(state).0)].iter();
    rules.flat_map(|name| of_name(*name, &ids)).collect()
}

fn ids(entries: &[Entry]) -> Vec<ComponentId> {
    entries.iter().map(|(id, _)| *id).collect()
}

fn of_name(name: usize, ids: &[ComponentId]) -> Vec<Event> {
    let kinds = match name {
        POWER_GOOD => POWER_ON_RESULTS.len(),
        BOOT_FAILED => BOOT_FAILURE_KINDS.len(),
        _ => 1,
    };
    let mut events = Vec::new();
    for kind in 0..kinds as u16 {
        if NAMING.contains(&name) {
            events.extend(
                ids.iter()
                    .map(|id| named_event(name, *id, CHECKPOINTS[usize::from(kind)], kind)),
            );
        } else {
            events.push(event([name as u16, kind, 0, 0]).expect("an event without an id"));
        }
    }
    events
}

/// The events that are fed back by the reply to an effect, which is the first
/// one of its dispatch or not: the reports that it asks for, and at the first
/// one stray events too.
pub fn fed(entries: &[Entry], effect: Effect, first: bool) -> Vec<Event> {
    let id = component_of(&effect).unwrap_or(entries[0].0);
    let mut events = reports(entries, effect);
    let stray = match effect {
        // An event that is fed back here stands before the emitted
        // RecoveryFailed, and may lead away from where that locks.
        Effect::ReportRecoveryFailed(id) => ruled(entries, State::Recovering(id)),
        // Locked has no rule, and its machines are visited themselves.
        Effect::LatchLockdown => vec![Event::EffectFailed],
        _ if first && !is_long(entries.len()) => vec![
            Event::Restored(id),
            Event::RecoveryUnavailable(id),
            Event::CorruptionDetected(id),
            Event::EffectFailed,
        ],
        _ if events.is_empty() => vec![Event::CorruptionDetected(id)],
        _ => Vec::new(),
    };
    for event in stray {
        if !events.contains(&event) {
            events.push(event);
        }
    }
    events
}

/// The reports that an effect asks for, the best one first and the worst one
/// last.
pub fn reports(entries: &[Entry], effect: Effect) -> Vec<Event> {
    match effect {
        Effect::VerifyFirmware(id) => {
            vec![Event::VerificationPassed(id), Event::VerificationFailed(id)]
        }
        Effect::ReleaseReset(id) => vec![
            Event::Booted(id),
            Event::ComponentReady(id),
            Event::Timeout(id),
        ],
        Effect::RecoverComponent { id, .. } => vec![
            Event::Restored(id),
            Event::RecoveryFailed,
            Event::RecoveryUnavailable(id),
        ],
        Effect::StageUpdate => vec![Event::UpdateVerified, Event::UpdateRejected],
        Effect::ActivateUpdate => {
            vec![Event::BootConfirmed(entries[0].0), Event::CommitTimeout]
        }
        _ => Vec::new(),
    }
}

/// Events for the first three effects of a dispatch that ends with the recovery
/// of a component. It is restored; another one times out, and is restored or
/// given up. If the first restore exhausts a Required component, the other two
/// events stand before the emitted RecoveryFailed and lead to PreSupervision,
/// with a retry of max_retry. No fewer events do, and two effects are needed to
/// feed back the first two. The retry is 0 before, so that the long chains,
/// which have max_retry 2, have no use for these.
pub fn overtaking(entries: &[Entry], effects: &[Effect]) -> Vec<[Event; 3]> {
    let [_, .., Effect::RecoverComponent { id, .. }] = effects else {
        return Vec::new();
    };
    if is_long(entries.len()) {
        return Vec::new();
    }
    let others = ids(entries).into_iter().filter(|other| other != id);
    others
        .flat_map(|other| {
            let ends = [Event::Restored(other), Event::RecoveryUnavailable(other)];
            ends.map(|end| [Event::Restored(*id), Event::Timeout(other), end])
        })
        .collect()
}

#[cfg(test)]
mod tests {
    use std::collections::HashSet;

    use super::super::chains::of_length;
    use super::*;
    use crate::steps::numbers::event_fields;

    fn entries(length: usize) -> Vec<Entry> {
        of_length(length).remove(0)
    }

    fn numbers(events: &[Event]) -> HashSet<[u16; 4]> {
        events.iter().map(event_fields).collect()
    }

    /// Seven events name nothing, PowerGood has three results, nine events name
    /// an id and BootFailed an id and one of three kinds.
    #[test]
    fn every_event_is_begun_with_every_value() {
        for length in [1, 2] {
            let events = begun(&entries(length), State::Locked);
            let expected = 7 + 3 + 12 * (length + 1);
            assert_eq!(numbers(&events).len(), expected);
            assert_eq!(events.len(), expected);
        }
    }

    #[test]
    fn on_chains_of_three_events_without_a_rule_are_left_out() {
        let entries = entries(3);
        assert!(begun(&entries, State::Locked).is_empty());
        // PowerGood and EffectFailed.
        assert_eq!(begun(&entries, State::PowerOnReset).len(), 3 + 1);
        // Two updates, AttestationChallenge, UpdateRequest and EffectFailed; four
        // that name an id, and BootFailed.
        assert_eq!(begun(&entries, State::Updating).len(), 5 + 3 * (4 + 3));
    }

    #[test]
    fn reports_come_first_and_nothing_is_fed_back_twice() {
        let entries = entries(2);
        let id = entries[1].0;
        let recover = Effect::RecoverComponent { id, attempt: 0 };
        let reported = [
            Event::Restored(id),
            Event::RecoveryFailed,
            Event::RecoveryUnavailable(id),
        ];
        assert_eq!(fed(&entries, recover, false), reported);
        let stray = [Event::CorruptionDetected(id), Event::EffectFailed];
        let first = fed(&entries, recover, true);
        assert_eq!(first, [reported.as_slice(), &stray].concat());
    }

    #[test]
    fn only_a_recovery_after_another_effect_is_overtaken() {
        let entries = entries(2);
        let (id, other) = (entries[0].0, entries[1].0);
        let recover = Effect::RecoverComponent { id, attempt: 0 };
        let effects = [Effect::DiscardStaged, recover];
        assert!(overtaking(&entries, &effects[1..]).is_empty());
        assert!(overtaking(&entries, &effects[..1]).is_empty());
        let start = [Event::Restored(id), Event::Timeout(other)];
        let ends = [Event::Restored(other), Event::RecoveryUnavailable(other)];
        let expected = ends.map(|end| [start[0], start[1], end]);
        assert_eq!(overtaking(&entries, &effects), expected);
    }

    #[test]
    fn every_effect_is_replied_to_with_an_event() {
        for length in [2, 3] {
            let entries = entries(length);
            let first = entries[0].0;
            let corruption = vec![Event::CorruptionDetected(first)];
            assert_eq!(fed(&entries, Effect::SignAttestation, false), corruption);
            assert_eq!(fed(&entries, Effect::AssertReset(first), false), corruption);
            let latched = fed(&entries, Effect::LatchLockdown, true);
            assert_eq!(latched, [Event::EffectFailed]);
        }
    }
}
