//! The text of sheets and transcripts. Names are those that the Rust's `Debug`
//! prints.

use std::fmt::{self, Debug};

use openprot_orchestrator_sm::{BootFailureKind, ComponentId, Effect, Event, State, Status};

use super::{Line, Refusal, Sheet};
use crate::histories::Reply;
use crate::lists::Entry;
use crate::steps::numbers::{component_of, event_fields};
use crate::steps::rules::NAMING;

/// The name of a variant, without its fields.
pub fn name(value: &impl Debug) -> String {
    let text = format!("{value:?}");
    text.chars().take_while(|c| c.is_alphanumeric()).collect()
}

pub fn event(event: &Event) -> String {
    let name = name(event);
    let [number, id, ..] = event_fields(event);
    match event {
        Event::PowerGood(result) => format!("{name}\t{result:?}"),
        Event::BootFailed {
            id,
            checkpoint,
            kind,
        } => boot_failed(&name, *id, checkpoint, *kind),
        _ if NAMING.contains(&number.into()) => format!("{name}\t{id}"),
        _ => name,
    }
}

/// Event and effect declare the same fields.
fn boot_failed(name: &str, id: ComponentId, checkpoint: &str, kind: BootFailureKind) -> String {
    format!("{name}\t{}\t{checkpoint}\t{kind:?}", id.get())
}

pub fn effect(effect: &Effect) -> String {
    let name = name(effect);
    match effect {
        Effect::RecoverComponent { id, attempt } => format!("{name}\t{}\t{attempt}", id.get()),
        Effect::ReportBootFailed {
            id,
            checkpoint,
            kind,
        } => boot_failed(&name, *id, checkpoint, *kind),
        Effect::Emit(_) => unreachable!("Emit is never handed out"),
        _ => match component_of(effect) {
            Some(id) => format!("{name}\t{}", id.get()),
            None => name,
        },
    }
}

pub fn state(state: State) -> String {
    let name = name(&state);
    match state {
        State::AwaitingReady(awaited) => format!("{name}\t{}", optional_id(awaited)),
        State::Recovering(failed) => format!("{name}\t{}", failed.get()),
        _ => name,
    }
}

fn optional_id(id: Option<ComponentId>) -> String {
    id.map_or("-".into(), |id| id.get().to_string())
}

fn component((id, attrs): &Entry) -> String {
    format!(
        "C\t{}\t{:?}\t{:?}\t{}\t{}\n",
        id.get(),
        attrs.kind,
        attrs.failure_policy,
        attrs.recovery_region.get(),
        optional_id(attrs.depends_on),
    )
}

/// The T line of one component.
pub fn status(id: ComponentId, status: Status) -> String {
    let lifecycle = if status.isolated {
        "Isolated"
    } else {
        "Nominal"
    };
    format!(
        "T\t{}\t{lifecycle}\t{}\t{}\t{}\n",
        id.get(),
        status.retry,
        u8::from(status.awaiting_boot),
        u8::from(status.released),
    )
}

impl fmt::Display for Line {
    fn fmt(&self, f: &mut fmt::Formatter<'_>) -> fmt::Result {
        match self {
            Line::Event(begun) => writeln!(f, "E\t{}", event(begun)),
            Line::Reply(Reply::Done) => writeln!(f, "R\tok"),
            Line::Reply(Reply::Failed) => writeln!(f, "R\tno"),
            Line::Reply(Reply::Then(fed)) => writeln!(f, "R\tthen\t{}", event(fed)),
        }
    }
}

impl fmt::Display for Sheet {
    fn fmt(&self, f: &mut fmt::Formatter<'_>) -> fmt::Result {
        writeln!(f, "B\t{}", self.max_retry)?;
        for entry in &self.entries {
            write!(f, "{}", component(entry))?;
        }
        self.lines.iter().try_for_each(|line| write!(f, "{line}"))
    }
}

/// The line that `replay` prints after the transcript.
impl fmt::Display for Refusal {
    fn fmt(&self, f: &mut fmt::Formatter<'_>) -> fmt::Result {
        writeln!(f, "F\t{}\t{}\t{}", self.number, self.place, self.other)
    }
}

#[cfg(test)]
mod tests {
    use openprot_orchestrator_sm::PowerOnResult;

    use super::*;

    const ID: ComponentId = ComponentId::new(255);

    #[test]
    fn fields_stand_in_declared_order() {
        let failed = Event::BootFailed {
            id: ID,
            checkpoint: "65535",
            kind: BootFailureKind::DeviceRetriable,
        };
        assert_eq!(event(&failed), "BootFailed\t255\t65535\tDeviceRetriable");
        let reported = Effect::ReportBootFailed {
            id: ID,
            checkpoint: "0",
            kind: BootFailureKind::TimedOut,
        };
        assert_eq!(effect(&reported), "ReportBootFailed\t255\t0\tTimedOut");
        let recovered = Effect::RecoverComponent {
            id: ID,
            attempt: 12,
        };
        assert_eq!(effect(&recovered), "RecoverComponent\t255\t12");
    }

    #[test]
    fn names_without_fields_stand_alone() {
        assert_eq!(event(&Event::EffectFailed), "EffectFailed");
        assert_eq!(effect(&Effect::LatchLockdown), "LatchLockdown");
        assert_eq!(state(State::PowerOnReset), "PowerOnReset");
        let good = Event::PowerGood(PowerOnResult::SelfVerificationFailed);
        assert_eq!(event(&good), "PowerGood\tSelfVerificationFailed");
    }

    #[test]
    fn a_state_without_its_component_has_a_dash() {
        assert_eq!(state(State::AwaitingReady(None)), "AwaitingReady\t-");
        assert_eq!(state(State::AwaitingReady(Some(ID))), "AwaitingReady\t255");
        assert_eq!(state(State::Recovering(ID)), "Recovering\t255");
    }

    #[test]
    fn a_status_is_a_line() {
        let held = Status {
            isolated: true,
            retry: 255,
            awaiting_boot: false,
            released: true,
        };
        assert_eq!(status(ID, held), "T\t255\tIsolated\t255\t0\t1\n");
    }
}
