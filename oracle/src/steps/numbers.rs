//! The numbers that stand for states, events and effects: their places in the
//! Rust's declared order, with their values after them.

use std::sync::LazyLock;

use openprot_orchestrator_sm::{BootFailureKind, ComponentId, Effect, Event, PowerOnResult, State};

/// The numbers of states and of events.
pub const STATES: usize = 7;
pub const EVENTS: usize = 18;

pub const POWER_ON_RESULTS: [PowerOnResult; 3] = [
    PowerOnResult::Provisioned,
    PowerOnResult::Unprovisioned,
    PowerOnResult::SelfVerificationFailed,
];

pub const BOOT_FAILURE_KINDS: [BootFailureKind; 3] = [
    BootFailureKind::TimedOut,
    BootFailureKind::DeviceRetriable,
    BootFailureKind::DeviceFatal,
];

/// The text of every checkpoint number. The Rust keeps a checkpoint as a text
/// that lives as long as the program.
static CHECKPOINTS: LazyLock<Vec<String>> =
    LazyLock::new(|| (0..=u16::MAX).map(|number| number.to_string()).collect());

fn checkpoint(number: u16) -> &'static str {
    &CHECKPOINTS[usize::from(number)]
}

fn checkpoint_number(text: &str) -> u16 {
    text.parse().expect("a checkpoint made from a number")
}

/// The place of `item` in `items`, which contains it.
fn place<T: PartialEq>(items: &[T], item: &T) -> u16 {
    let place = items.iter().position(|other| other == item);
    place.expect("every value is listed") as u16
}

/// A state's number and the id that it carries.
pub fn state_parts(state: State) -> (u8, Option<ComponentId>) {
    match state {
        State::PowerOnReset => (0, None),
        State::PreSupervision => (1, None),
        State::AwaitingReady(awaited) => (2, awaited),
        State::Ready => (3, None),
        State::Updating => (4, None),
        State::Recovering(failed) => (5, Some(failed)),
        State::Locked => (6, None),
    }
}

/// The state with this number and id.
pub fn state(number: u64, id: Option<ComponentId>) -> Result<State, String> {
    match (number, id) {
        (0, None) => Ok(State::PowerOnReset),
        (1, None) => Ok(State::PreSupervision),
        (2, awaited) => Ok(State::AwaitingReady(awaited)),
        (3, None) => Ok(State::Ready),
        (4, None) => Ok(State::Updating),
        (5, Some(failed)) => Ok(State::Recovering(failed)),
        (6, None) => Ok(State::Locked),
        _ => Err(format!("state {number} with the id {id:?}")),
    }
}

/// An event's number and its three values.
pub fn event_fields(event: &Event) -> [u16; 4] {
    let plain = |number| [number, 0, 0, 0];
    let named = |number, id: &ComponentId| [number, id.get().into(), 0, 0];
    match event {
        Event::PowerGood(result) => [0, place(&POWER_ON_RESULTS, result), 0, 0],
        Event::VerificationPassed(id) => named(1, id),
        Event::VerificationFailed(id) => named(2, id),
        Event::ComponentReady(id) => named(3, id),
        Event::Booted(id) => named(4, id),
        Event::AttestationChallenge => plain(5),
        Event::UpdateRequest => plain(6),
        Event::UpdateVerified => plain(7),
        Event::UpdateRejected => plain(8),
        Event::BootConfirmed(id) => named(9, id),
        Event::CorruptionDetected(id) => named(10, id),
        Event::Restored(id) => named(11, id),
        Event::RecoveryUnavailable(id) => named(12, id),
        Event::RecoveryFailed => plain(13),
        Event::BootFailed {
            id,
            checkpoint,
            kind,
        } => boot_failed_fields(14, *id, checkpoint, *kind),
        Event::Timeout(id) => named(15, id),
        Event::CommitTimeout => plain(16),
        Event::EffectFailed => plain(17),
    }
}

fn boot_failed_fields(
    number: u16,
    id: ComponentId,
    checkpoint: &str,
    kind: BootFailureKind,
) -> [u16; 4] {
    let kind = place(&BOOT_FAILURE_KINDS, &kind);
    [number, id.get().into(), checkpoint_number(checkpoint), kind]
}

/// The event with these fields. A value that the event does not have is 0.
pub fn event(fields: [u16; 4]) -> Result<Event, String> {
    let event = event_of(fields).ok_or_else(|| format!("event {fields:?}"))?;
    if event_fields(&event) == fields {
        Ok(event)
    } else {
        Err(format!("event {fields:?} has a value too many"))
    }
}

fn event_of([number, a, b, c]: [u16; 4]) -> Option<Event> {
    let id = ComponentId::new(u8::try_from(a).ok()?);
    Some(match number {
        0 => Event::PowerGood(*POWER_ON_RESULTS.get(usize::from(a))?),
        1 => Event::VerificationPassed(id),
        2 => Event::VerificationFailed(id),
        3 => Event::ComponentReady(id),
        4 => Event::Booted(id),
        5 => Event::AttestationChallenge,
        6 => Event::UpdateRequest,
        7 => Event::UpdateVerified,
        8 => Event::UpdateRejected,
        9 => Event::BootConfirmed(id),
        10 => Event::CorruptionDetected(id),
        11 => Event::Restored(id),
        12 => Event::RecoveryUnavailable(id),
        13 => Event::RecoveryFailed,
        14 => Event::BootFailed {
            id,
            checkpoint: checkpoint(b),
            kind: *BOOT_FAILURE_KINDS.get(usize::from(c))?,
        },
        15 => Event::Timeout(id),
        16 => Event::CommitTimeout,
        17 => Event::EffectFailed,
        _ => return None,
    })
}

/// An effect's number and its three values.
pub fn effect_fields(effect: &Effect) -> [u16; 4] {
    let plain = |number| [number, 0, 0, 0];
    let named = |number, id: &ComponentId| [number, id.get().into(), 0, 0];
    match effect {
        Effect::ReadFirmware(id) => named(0, id),
        Effect::VerifyFirmware(id) => named(1, id),
        Effect::ReleaseReset(id) => named(2, id),
        Effect::AssertReset(id) => named(3, id),
        Effect::SignAttestation => plain(4),
        Effect::AuthenticateUpdate => plain(5),
        Effect::StageUpdate => plain(6),
        Effect::ActivateUpdate => plain(7),
        Effect::DiscardStaged => plain(8),
        Effect::CommitSvnFloor(id) => named(9, id),
        Effect::RecoverComponent { id, attempt } => [10, id.get().into(), (*attempt).into(), 0],
        Effect::ReportIsolated(id) => named(11, id),
        Effect::ReportRecoveryFailed(id) => named(12, id),
        Effect::ReportBootFailed {
            id,
            checkpoint,
            kind,
        } => boot_failed_fields(13, *id, checkpoint, *kind),
        Effect::ReportUpdateDeferred => plain(14),
        Effect::ReportUpdateAborted => plain(15),
        Effect::LatchLockdown => plain(16),
        Effect::Emit(event) => [17, event_fields(event)[0], 0, 0],
    }
}

/// The component that an effect names.
pub fn component_of(effect: &Effect) -> Option<ComponentId> {
    match effect {
        Effect::ReadFirmware(id)
        | Effect::VerifyFirmware(id)
        | Effect::ReleaseReset(id)
        | Effect::AssertReset(id)
        | Effect::CommitSvnFloor(id)
        | Effect::RecoverComponent { id, .. }
        | Effect::ReportIsolated(id)
        | Effect::ReportRecoveryFailed(id)
        | Effect::ReportBootFailed { id, .. } => Some(*id),
        Effect::SignAttestation
        | Effect::AuthenticateUpdate
        | Effect::StageUpdate
        | Effect::ActivateUpdate
        | Effect::DiscardStaged
        | Effect::ReportUpdateDeferred
        | Effect::ReportUpdateAborted
        | Effect::LatchLockdown
        | Effect::Emit(_) => None,
    }
}

#[cfg(test)]
mod tests {
    use super::*;

    #[test]
    fn states_read_back() {
        let id = ComponentId::new(9);
        for (number, carried) in [
            (0, None),
            (1, None),
            (2, None),
            (2, Some(id)),
            (3, None),
            (4, None),
            (5, Some(id)),
            (6, None),
        ] {
            let made = state(number, carried).unwrap();
            assert_eq!(state_parts(made), (number as u8, carried));
        }
    }

    #[test]
    fn states_with_a_wrong_id_are_refused() {
        let id = Some(ComponentId::new(9));
        for (number, carried) in [(0, id), (1, id), (3, id), (4, id), (5, None), (6, id)] {
            assert!(state(number, carried).is_err(), "{number}");
        }
        assert!(state(7, None).is_err());
    }

    #[test]
    fn events_stand_in_the_declared_order() {
        let id = ComponentId::new(8);
        assert_eq!(event([0, 2, 0, 0]), {
            Ok(Event::PowerGood(PowerOnResult::SelfVerificationFailed))
        });
        assert_eq!(event([9, 8, 0, 0]), Ok(Event::BootConfirmed(id)));
        assert_eq!(event([17, 0, 0, 0]), Ok(Event::EffectFailed));
        let failed = Event::BootFailed {
            id,
            checkpoint: "65535",
            kind: BootFailureKind::DeviceFatal,
        };
        assert_eq!(event([14, 8, 65535, 2]), Ok(failed));
        assert_eq!(event_fields(&failed), [14, 8, 65535, 2]);
    }

    #[test]
    fn events_with_wrong_values_are_refused() {
        for fields in [
            [18, 0, 0, 0],
            [0, 3, 0, 0],
            [1, 256, 0, 0],
            [1, 7, 1, 0],
            [5, 1, 0, 0],
            [14, 7, 0, 3],
            [15, 7, 0, 1],
        ] {
            assert!(event(fields).is_err(), "{fields:?}");
        }
    }

    #[test]
    fn effects_stand_in_the_declared_order() {
        let id = ComponentId::new(8);
        let boot_failed = Effect::ReportBootFailed {
            id,
            checkpoint: "12",
            kind: BootFailureKind::DeviceRetriable,
        };
        let recover = Effect::RecoverComponent { id, attempt: 3 };
        for (effect, fields) in [
            (Effect::ReadFirmware(id), [0, 8, 0, 0]),
            (Effect::CommitSvnFloor(id), [9, 8, 0, 0]),
            (recover, [10, 8, 3, 0]),
            (boot_failed, [13, 8, 12, 1]),
            (Effect::LatchLockdown, [16, 0, 0, 0]),
            (Effect::Emit(Event::RecoveryFailed), [17, 13, 0, 0]),
        ] {
            assert_eq!(effect_fields(&effect), fields);
        }
    }
}
