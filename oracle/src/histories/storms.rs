//! Histories in which components fail again and again, in longer chains, in
//! lines and in fans.

use openprot_orchestrator_sm::{ComponentId, Event, FailurePolicy, State};

use super::History;
use super::events::fatal;
use super::generate::{draw_mood, ids};
use super::scenes::{led_by_required, release_next};
use super::writer::{Mood, Writer};
use crate::lists::Entry;
use crate::lists::generate::accepted;
use crate::random::SplitMix64;
use crate::steps::generate::draw_max_retry;

/// Each component depends on the one before it.
pub fn deep_line(random: &mut SplitMix64) -> History {
    let length = random.between(8, 40);
    let entries = linked(random, length, |_, place| place - 1);
    faults(random, entries)
}

/// A few components depend on the first one, and all others on one of these or
/// on the first: so cascades come in every order.
pub fn wide_fan(random: &mut SplitMix64) -> History {
    let length = random.between(8, 40);
    let hubs = random.between(1, 4);
    let entries = linked(random, length, |random, place| {
        if place <= hubs {
            0
        } else {
            random.between(0, hubs)
        }
    });
    faults(random, entries)
}

/// A chain whose links are given by position. The first one is Cascading in two
/// of three.
fn linked(
    random: &mut SplitMix64,
    length: usize,
    link: impl Fn(&mut SplitMix64, usize) -> usize,
) -> Vec<Entry> {
    let mut entries = accepted(random, length);
    for place in 1..length {
        entries[place].1.depends_on = Some(entries[link(random, place)].0);
    }
    if !random.one_in(3) {
        entries[0].1.failure_policy = FailurePolicy::Cascading;
    }
    entries
}

/// Some components are released; then one after the other fails.
fn faults(random: &mut SplitMix64, entries: Vec<Entry>) -> History {
    let max_retry = draw_max_retry(random);
    let mut writer = Writer::new(random, entries, max_retry);
    writer.power_good();
    for _ in 0..writer.random.below(writer.entries.len() + 4) {
        release_next(&mut writer);
    }
    for _ in 0..writer.random.between(3, 8) {
        let (event, mood) = (fault(&mut writer), draw_mood(writer.random));
        writer.dispatch(event, mood);
        let event = writer.apt_event();
        writer.dispatch(event, Mood::Calm);
    }
    writer.finish()
}

/// An event that says of any component that it failed. Those at the front, which
/// most others depend on, come more often.
fn fault(writer: &mut Writer) -> Event {
    let most = writer.random.pick(&[3, writer.entries.len()]);
    let id = writer.entries[writer.random.below(most.min(writer.entries.len()))].0;
    let booting = booting(writer).unwrap_or(id);
    match writer.random.below(8) {
        0..=2 => Event::CorruptionDetected(id),
        3 => fatal(writer.random, id),
        4 | 5 => fatal(writer.random, booting),
        6 => Event::Timeout(booting),
        _ => Event::Timeout(id),
    }
}

/// One of the components that have not said yet that they booted.
fn booting(writer: &mut Writer) -> Option<ComponentId> {
    let statuses = writer.machine.machine().statuses;
    let entries = writer.entries.iter().zip(statuses);
    let booting: Vec<ComponentId> = entries
        .filter(|(_, status)| status.awaiting_boot)
        .map(|((id, _), _)| *id)
        .collect();
    (!booting.is_empty()).then(|| writer.random.pick(&booting))
}

/// A short chain whose components fail, are restored and fail again, while
/// others fail beside them. In one of three a Required component depends on a
/// Cascading one, so that it is isolated while it is recovered.
pub fn recovery_storm(random: &mut SplitMix64) -> History {
    let length = random.between(1, 6);
    let mut entries = accepted(random, length);
    if length > 1 && random.one_in(3) {
        entries[0].1.failure_policy = FailurePolicy::Cascading;
        entries[1].1.failure_policy = FailurePolicy::Required;
        entries[1].1.depends_on = Some(entries[0].0);
    }
    let max_retry = random.between(0, 4) as u8;
    let mut writer = Writer::new(random, entries, max_retry);
    writer.power_good();
    for _ in 0..writer.random.between(10, 30) {
        if writer.machine.state() == State::Locked {
            break;
        }
        let event = storm_event(&mut writer);
        let mood = writer
            .random
            .pick(&[Mood::Calm, Mood::Calm, Mood::Reporting]);
        writer.dispatch(event, mood);
    }
    writer.finish()
}

fn storm_event(writer: &mut Writer) -> Event {
    let at_cursor = writer.at_cursor();
    match (writer.machine.state(), writer.random.below(16), at_cursor) {
        (State::Recovering(id), 0..=5, _) => Event::Restored(id),
        (State::Recovering(id), 6 | 7, _) => Event::RecoveryUnavailable(id),
        (State::Recovering(_), 8..=14, _) => fault(writer),
        (_, 0..=6, Some(id)) => Event::VerificationPassed(id),
        (_, 7..=9, Some(id)) => Event::VerificationFailed(id),
        (_, 10, _) => Event::VerificationFailed(writer.random.pick(&ids(&writer.entries))),
        (_, 11..=14, _) => fault(writer),
        _ => writer.apt_event(),
    }
}

/// The first component is restored until its retry stops at 255. A Required one
/// is restored once more, before the event that Emit queues is settled.
pub fn restored_255_times(random: &mut SplitMix64) -> History {
    let mut entries = led_by_required(random, 2);
    if random.one_in(3) {
        entries[0].1.failure_policy =
            random.pick(&[FailurePolicy::Isolable, FailurePolicy::Cascading]);
    }
    let first = entries[0].0;
    let mut writer = Writer::new(random, entries, u8::MAX);
    writer.power_good();
    for _ in 0..u8::MAX {
        writer.dispatch(Event::VerificationFailed(first), Mood::Calm);
        writer.begin(Event::Restored(first));
        writer.reply_once_more(Event::Restored(first));
        writer.replies(Mood::Calm);
    }
    writer.finish()
}
