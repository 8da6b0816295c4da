//! The corners of settling that a comparison has to reach, and how one taken
//! event or one ended dispatch is named by them.

use openprot_orchestrator_sm::{ComponentId, Effect, Event, State};

use super::unreached::{UNREACHED, is_unreached};
use crate::lists::{Entry, LONGEST};
use crate::steps::numbers::{EVENTS, STATES, effect_fields, event_fields, state_parts};
use crate::steps::rules::{NAMING, RULES};
use crate::steps::{Answer, Case, Machine, rows};

/// The effects that are handed out: all but Emit.
const HANDED: usize = 17;

/// The most events that one call settles, by section 4 of document 01.
const MOST_IN_A_CALL: usize = 8;

/// Corners with a name of their own.
const NAMED: [&str; 40] = [
    "no_machine",
    "new_accepted",
    "new_refused",
    "one_step_between_calls",
    "dispatch_left_unfinished",
    "chain_of_1",
    "chain_of_255",
    "begun_with_a_rule",
    "begun_without_a_rule",
    "begun_about_an_id_outside",
    "refused_begin",
    "refused_reply_done",
    "refused_reply_then",
    "refused_reply_failed",
    "replied_done",
    "replied_then",
    "replied_failed",
    "queue_filled",
    "reply_found_8_queued",
    "emit_queued",
    "emit_found_8_queued",
    "newest_put_out",
    "first_failure_with_effects_left",
    "first_failure_at_the_last_effect",
    "first_failure_queue_empty",
    "first_failure_queue_of_1_to_7",
    "first_failure_queue_full",
    "second_failure",
    "effect_failed_locks",
    "effect_failed_in_locked",
    "drained_in_locked",
    "verdict_fed_back_and_passed",
    "verdict_fed_back_and_failed",
    "restore_fed_back",
    "update_verdict_fed_back",
    "boot_report_fed_back",
    "emitted_recovery_failed_locks",
    "emitted_recovery_failed_does_nothing",
    "dispatch_over_8_events",
    "handed_past_place_256",
];

/// What follows a failure that did not lock the machine.
const AFTER_A_FAILURE: [&str; 7] = [
    "reply_lost_after_a_failure",
    "emit_lost_after_a_failure",
    "handed_after_a_loss",
    "second_failure_with_effects_left",
    "third_failure",
    "later_failure_not_locked",
    "first_failure_after_a_survived_one",
];

/// No history reaches these, nor what follows such a failure; docs/TESTING.md
/// says why. A history that does is a failure of the comparison.
const NEVER: [&str; 3] = [
    SETTLED_OVER_8,
    READY_BY_COMPONENT_READY,
    WALK_AT_AN_ISOLATED_ONE,
];

const SETTLED_OVER_8: &str = "call_settled_over_8";

const READY_BY_COMPONENT_READY: &str = "component_ready_gives_ready";
const WALK_AT_AN_ISOLATED_ONE: &str = "walk_at_an_isolated_one";
const RETRY_STOPS: &str = "retry_stops_at_255";

/// Reached from set-up machines and planted queues, beside what follows such a
/// failure.
const SET_UP: [&str; 6] = [
    READY_BY_COMPONENT_READY,
    WALK_AT_AN_ISOLATED_ONE,
    RETRY_STOPS,
    "planted",
    "planted_in_vain",
    "kept_beside_one_put_out",
];

/// Whether a corner is noted of a machine that was set up: one that it has to
/// reach, or the one that it must not reach either.
pub fn is_noted_of_set_up(name: &str) -> bool {
    SET_UP.contains(&name) || AFTER_A_FAILURE.contains(&name) || name == SETTLED_OVER_8
}

pub fn set_up(name: &str) -> String {
    format!("set_up_{name}")
}

/// The corners that set-up machines have to reach.
pub fn set_up_names() -> Vec<String> {
    SET_UP
        .into_iter()
        .chain(AFTER_A_FAILURE)
        .map(set_up)
        .collect()
}

/// The corners that histories have to reach.
pub fn names() -> Vec<String> {
    let numbered = |name: &str, count| {
        let name = name.to_string();
        (0..count).map(move |number| format!("{name}_{number}"))
    };
    let states = (0..STATES).map(|number| format!("ended_in_{number}"));
    let mut names: Vec<String> = NAMED.map(String::from).to_vec();
    names.extend(numbered("begun", EVENTS));
    names.extend(numbered("replied_then", EVENTS));
    names.extend(numbered("handed", HANDED));
    names.extend(numbered("call_settled", MOST_IN_A_CALL + 1));
    names.extend(states);
    names.push("ended_in_2_awaiting_none".into());
    names
}

/// The corners that one history in many reaches: a retry of 255 that stays, a
/// failure at each effect, and the rows of `steps` that histories reach at all.
pub fn rare_names() -> Vec<String> {
    let mut names = vec![RETRY_STOPS.to_string()];
    names.extend((0..HANDED).map(|number| format!("failed_at_{number}")));
    let rows = rows::names().into_iter();
    names.extend(
        rows.filter(|name| !is_unreached(name))
            .map(|name| row(&name)),
    );
    names
}

/// The corners that no history reaches, and the one that no set-up does.
pub fn never_names() -> Vec<String> {
    let rows = UNREACHED.iter().flat_map(|(_, rows)| rows.iter());
    let mut names = vec![set_up(SETTLED_OVER_8)];
    names.extend(AFTER_A_FAILURE.map(String::from));
    names.extend(NEVER.map(String::from));
    names.extend(rows.map(|name| row(name)));
    names
}

/// Where a queued event came from.
#[derive(Clone, Copy, PartialEq, Eq, Debug)]
pub enum Origin {
    Begun,
    /// The reply to this effect.
    Fed(Effect),
    Emitted,
    /// The first failure of the dispatch.
    Latched,
    /// In the place of the first failure.
    Planted,
    /// One of 8 that were queued at a planted failure, but not the newest.
    Kept,
}

pub fn number_of(event: &Event) -> u16 {
    event_fields(event)[0]
}

/// An event that is begun in this state, on a chain with these ids.
pub fn begun(event: &Event, state: State, entries: &[Entry]) -> Vec<String> {
    let [number, id, ..] = event_fields(event);
    let name = usize::from(number);
    let rules = RULES[usize::from(state_parts(state).0)];
    let inside = entries
        .iter()
        .any(|(present, _)| u16::from(present.get()) == id);
    let kind = if !rules.contains(&name) {
        "begun_without_a_rule"
    } else if NAMING.contains(&name) && !inside {
        "begun_about_an_id_outside"
    } else {
        "begun_with_a_rule"
    };
    vec![format!("begun_{number}"), kind.into()]
}

pub fn handed(effect: &Effect) -> String {
    format!("handed_{}", effect_fields(effect)[0])
}

/// The reply to this effect is that it failed.
pub fn failed_at(effect: &Effect) -> String {
    format!("failed_at_{}", effect_fields(effect)[0])
}

/// One event that was taken from the queue and stepped.
pub struct Taken<'a> {
    pub case: &'a Case,
    pub answer: &'a Answer,
    pub origin: Origin,
}

impl Taken<'_> {
    fn before(&self) -> &Machine {
        &self.case.machine
    }

    fn after(&self) -> &Machine {
        &self.answer.machine
    }
}

/// The name of a row of `steps` among the corners.
pub fn row(name: &str) -> String {
    format!("step_{name}")
}

pub fn taken(taken: &Taken) -> Vec<String> {
    let rows = rows::reached(taken.case, taken.answer);
    let mut names: Vec<String> = rows.iter().map(|name| row(name)).collect();
    names.extend(by_origin(taken).map(String::from));
    if taken.before().state == State::Locked && taken.origin != Origin::Begun {
        names.push("drained_in_locked".into());
    }
    names.extend(set_up_corners(taken).into_iter().map(String::from));
    names
}

fn by_origin(taken: &Taken) -> Option<&'static str> {
    let locks = taken.before().state != State::Locked && taken.after().state == State::Locked;
    match taken.origin {
        Origin::Begun | Origin::Planted => None,
        Origin::Latched if locks => Some("effect_failed_locks"),
        Origin::Latched => Some("effect_failed_in_locked"),
        Origin::Emitted if locks => Some("emitted_recovery_failed_locks"),
        Origin::Emitted => Some("emitted_recovery_failed_does_nothing"),
        Origin::Fed(effect) => fed_back(taken, effect),
        Origin::Kept if settled(taken) => Some("kept_beside_one_put_out"),
        Origin::Kept => None,
    }
}

/// The event has done something.
fn settled(taken: &Taken) -> bool {
    taken.before() != taken.after() || !taken.answer.effects.is_empty()
}

/// A report that an effect asks for, fed back and settled by a rule.
fn fed_back(taken: &Taken, effect: Effect) -> Option<&'static str> {
    if !settled(taken) {
        return None;
    }
    match (effect, taken.case.event) {
        (Effect::VerifyFirmware(id), Event::VerificationPassed(of)) if id == of => {
            Some("verdict_fed_back_and_passed")
        }
        (Effect::VerifyFirmware(id), Event::VerificationFailed(of)) if id == of => {
            Some("verdict_fed_back_and_failed")
        }
        (
            Effect::RecoverComponent { id, .. },
            Event::Restored(of) | Event::RecoveryUnavailable(of),
        ) if id == of => Some("restore_fed_back"),
        (
            Effect::AuthenticateUpdate | Effect::StageUpdate,
            Event::UpdateVerified | Event::UpdateRejected,
        ) => Some("update_verdict_fed_back"),
        (
            Effect::ReleaseReset(id),
            Event::Booted(of) | Event::Timeout(of) | Event::BootFailed { id: of, .. },
        ) if id == of => Some("boot_report_fed_back"),
        _ => None,
    }
}

fn set_up_corners(taken: &Taken) -> Vec<&'static str> {
    let before = taken.before();
    let at_cursor = before.statuses.get(usize::from(before.cursor));
    let walking = matches!(
        before.state,
        State::PreSupervision | State::AwaitingReady(_)
    );
    [
        (READY_BY_COMPONENT_READY, becomes_ready(taken)),
        (
            WALK_AT_AN_ISOLATED_ONE,
            walking && at_cursor.is_some_and(|status| status.isolated),
        ),
        (RETRY_STOPS, retry_stops(taken)),
    ]
    .into_iter()
    .filter(|(_, reached)| *reached)
    .map(|(name, _)| name)
    .collect()
}

fn becomes_ready(taken: &Taken) -> bool {
    matches!(taken.case.event, Event::ComponentReady(_))
        && matches!(taken.before().state, State::AwaitingReady(_))
        && taken.after().state == State::Ready
}

/// A Required component is restored and reported, and its retry does not
/// change: it is 255.
fn retry_stops(taken: &Taken) -> bool {
    let restored = |failed: ComponentId| taken.case.event == Event::Restored(failed);
    let effects = &taken.answer.effects;
    let emits = effects.contains(&Effect::Emit(Event::RecoveryFailed));
    matches!(taken.before().state, State::Recovering(failed) if restored(failed))
        && emits
        && taken.before().statuses == taken.after().statuses
}

/// A call that settled this many events.
pub fn call_settled(events: usize) -> String {
    if events > MOST_IN_A_CALL {
        SETTLED_OVER_8.into()
    } else {
        format!("call_settled_{events}")
    }
}

/// A dispatch that took `events` events ended with this machine.
pub fn ended(machine: &Machine, events: usize) -> Vec<String> {
    let (state, _) = state_parts(machine.state);
    let mut names = vec![format!("ended_in_{state}")];
    if machine.state == State::AwaitingReady(None) {
        names.push("ended_in_2_awaiting_none".into());
    }
    for (name, reached) in [
        ("dispatch_over_8_events", events > MOST_IN_A_CALL),
        ("chain_of_1", machine.statuses.len() == 1),
        ("chain_of_255", machine.statuses.len() == LONGEST),
    ] {
        if reached {
            names.push(name.into());
        }
    }
    names
}
