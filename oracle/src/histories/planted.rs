//! Histories with planted failures: other events in the place of EffectFailed,
//! so that the machine need not lock and what follows a failure can be seen.

use openprot_orchestrator_sm::{ComponentId, Event, State};

use super::scenes::{beside_a_cascade, led_by_required};
use super::stepwise::QUEUE;
use super::writer::{Mood, Writer};
use super::{History, Reply};
use crate::random::SplitMix64;
use crate::steps::generate::{draw_event, draw_machine, draw_max_retry};

/// The replies after a planted failure before all are done: after a failure a
/// full queue ends nothing, and events could be fed back for ever.
const STORMY: usize = 24;

pub fn planted_failures(random: &mut SplitMix64) -> History {
    let entries = if random.one_in(4) {
        led_by_required(random, 6)
    } else {
        beside_a_cascade(random)
    };
    let max_retry = draw_max_retry(random);
    let mut writer = Writer::new(random, entries, max_retry);
    let scenes = [of_any_machine, of_a_cascade, of_a_recovery, of_a_full_queue];
    for _ in 0..writer.random.between(1, 9) {
        let scene = scenes[writer.random.weighted(&[4, 4, 4, 5])];
        scene(&mut writer);
    }
    writer.finish()
}

/// Any machine, and an event that mostly has effects: one of them fails.
fn of_any_machine(writer: &mut Writer) {
    let machine = draw_machine(writer.random, &writer.entries);
    let event = draw_event(writer.random, &writer.entries, &machine);
    writer.set_up(machine);
    writer.begin(event);
    for _ in 0..writer.random.below(3) {
        writer.done_if_waiting();
    }
    let planted = some_apt_events(writer);
    storm(writer, planted);
}

/// A cascade stands in the place of EffectFailed, so that there are effects to
/// reply to while the queue is full.
fn of_a_cascade(writer: &mut Writer) {
    let mut machine = draw_machine(writer.random, &writer.entries);
    machine.state = writer.random.pick(&[State::Ready, State::Updating]);
    for status in &mut machine.statuses {
        status.isolated = false;
    }
    writer.set_up(machine);
    writer.begin(Event::AttestationChallenge);
    let mut planted = some_apt_events(writer);
    planted.insert(0, Event::CorruptionDetected(second(writer)));
    planted.truncate(QUEUE);
    storm(writer, planted);
}

/// A Required component cannot be recovered while the queue is full, so that
/// the event that Emit queues is lost.
fn of_a_recovery(writer: &mut Writer) {
    let required = writer.entries[0].0;
    let mut machine = draw_machine(writer.random, &writer.entries);
    machine.state = State::Recovering(required);
    writer.set_up(machine);
    writer.begin(Event::UpdateRequest);
    let mut planted = some_apt_events(writer);
    planted.insert(0, Event::RecoveryUnavailable(required));
    planted.truncate(QUEUE);
    storm(writer, planted);
}

/// The replies fill the queue before the failure. One event takes the place of
/// EffectFailed, so that those that were queued act: all but the newest.
fn of_a_full_queue(writer: &mut Writer) {
    let mut machine = draw_machine(writer.random, &writer.entries);
    machine.state = State::PreSupervision;
    machine.cursor = 0;
    for status in &mut machine.statuses {
        status.isolated = false;
    }
    writer.set_up(machine);
    writer.begin(Event::CorruptionDetected(second(writer)));
    for _ in 0..QUEUE {
        if writer.machine.waiting().is_some() {
            let event = writer.apt_event();
            writer.reply(Reply::Then(event));
        }
    }
    let planted = vec![writer.not_locking_event()];
    storm(writer, planted);
}

/// The component at position 1, which others depend on, if there is one.
fn second(writer: &Writer) -> ComponentId {
    writer.entries[1.min(writer.entries.len() - 1)].0
}

/// Up to 8 events, mostly all 8, that the state has rules for.
fn some_apt_events(writer: &mut Writer) -> Vec<Event> {
    let count = writer
        .random
        .pick(&[QUEUE, QUEUE, QUEUE, QUEUE - 1, 3, 1, 0]);
    (0..count).map(|_| writer.not_locking_event()).collect()
}

/// A planted failure and anything after it. Then a dispatch of its own fails
/// first: the failure before does not count for it.
fn storm(writer: &mut Writer, planted: Vec<Event>) {
    writer.fail_planted(planted);
    for _ in 0..STORMY {
        if writer.machine.waiting().is_none() {
            break;
        }
        stormy_reply(writer);
    }
    writer.replies(Mood::Calm);
    let event = writer.apt_event();
    writer.begin(event);
    if writer.random.one_in(3) {
        let planted = some_apt_events(writer);
        writer.fail_planted(planted);
    } else {
        writer.reply(Reply::Failed);
    }
    writer.replies(Mood::Calm);
}

fn stormy_reply(writer: &mut Writer) {
    let event = writer.not_locking_event();
    match writer.random.below(14) {
        0 | 1 => writer.reply(Reply::Failed),
        2 => writer.fail_planted(vec![event]),
        3 => writer.reply(Reply::Done),
        _ => writer.reply(Reply::Then(event)),
    }
}
