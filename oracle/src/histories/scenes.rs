//! Histories that lead to one corner.

use openprot_orchestrator_sm::{ComponentId, Event, FailurePolicy, State};

use super::events::{fatal, inapt_event};
use super::generate::ids;
use super::stepwise::QUEUE;
use super::writer::{MOODS, Mood, Writer};
use super::{Call, History, Reply};
use crate::lists::answer::{Answer, answer};
use crate::lists::generate::{accepted, lists};
use crate::lists::{Entry, LONGEST};
use crate::random::SplitMix64;
use crate::steps::Machine;
use crate::steps::generate::{draw_event, draw_machine, draw_max_retry, draw_statuses};

/// Calls before any machine is made, and single steps.
pub fn without_machine(random: &mut SplitMix64) -> History {
    let mut history = refused_list(random);
    history.calls.remove(0);
    history
}

/// A list that is refused, and calls on no machine.
pub fn refused_list(random: &mut SplitMix64) -> History {
    let seed = random.next_u64();
    let list = lists(seed)
        .find(|list| answer(list) != Answer::ACCEPTED && list.entries.len() < LONGEST)
        .expect("many lists are refused");
    let mut calls = vec![Call::New {
        max_retry: draw_max_retry(random),
        list,
    }];
    for _ in 0..random.between(1, 3) {
        calls.push(random.pick(&CALLS_ON_NONE).into());
    }
    History::new(calls)
}

/// Calls that need a machine.
#[derive(Clone, Copy)]
enum OnNone {
    Begin,
    Done,
    Then,
    Failed,
}

const CALLS_ON_NONE: [OnNone; 4] = [OnNone::Begin, OnNone::Done, OnNone::Then, OnNone::Failed];

impl From<OnNone> for Call {
    fn from(call: OnNone) -> Self {
        match call {
            OnNone::Begin => Call::Begin(Event::EffectFailed),
            OnNone::Done => Call::Reply(Reply::Done),
            OnNone::Then => Call::Reply(Reply::Then(Event::AttestationChallenge)),
            OnNone::Failed => Call::Reply(Reply::Failed),
        }
    }
}

/// A Required component at position 0, and behind it a Cascading one with
/// dependents in a row or around it.
pub fn beside_a_cascade(random: &mut SplitMix64) -> Vec<Entry> {
    let length = random.between(6, 9);
    let mut entries = accepted(random, length);
    let in_a_row = random.one_in(2);
    for place in 0..length {
        entries[place].1.depends_on = match place {
            0 | 1 => None,
            _ if in_a_row => Some(entries[place - 1].0),
            _ => Some(entries[1].0),
        };
    }
    entries[0].1.failure_policy = FailurePolicy::Required;
    entries[1].1.failure_policy = FailurePolicy::Cascading;
    entries
}

/// Replies that fill the queue, up to 8 and beyond.
pub fn full_queue(random: &mut SplitMix64) -> History {
    let scenes = [exhausted_under_flood, cascade_flood, drained];
    let scene = scenes[random.weighted(&[190, 120, 210])];
    scene(random)
}

/// The replies fill the queue while a Required component is exhausted, so that
/// the event that Emit queues finds 8, or one less.
fn exhausted_under_flood(random: &mut SplitMix64) -> History {
    let entries = beside_a_cascade(random);
    let (required, root) = (entries[0].0, entries[1].0);
    let max_retry = random.below(4) as u8;
    let mut writer = Writer::new(random, entries, max_retry);
    writer.power_good();
    writer.begin(Event::CorruptionDetected(root));
    let exhausting = if max_retry < 2 && writer.random.one_in(2) {
        Event::Restored(required)
    } else {
        Event::RecoveryUnavailable(required)
    };
    // Some are fewer than 8, so that Emit finds room.
    let queued = writer.random.pick(&[QUEUE, QUEUE, QUEUE, QUEUE - 1, 3, 3]);
    let first = [Event::VerificationFailed(required), exhausting];
    for place in 0..queued {
        let event = first.get(place).copied();
        let event = event.unwrap_or_else(|| filler(&mut writer, required));
        writer.reply(Reply::Then(event));
    }
    while writer.machine.state() == State::PreSupervision && writer.machine.waiting().is_some() {
        writer.reply(Reply::Done);
    }
    // RecoverComponent and ReportRecoveryFailed wait in turn.
    for _ in 0..2 {
        let event = filler(&mut writer, required);
        let reply = match writer.random.below(16) {
            0 => Reply::Failed,
            1 => Reply::Done,
            _ => Reply::Then(event),
        };
        writer.reply(reply);
    }
    after(&mut writer);
    writer.finish()
}

/// An event behind those that matter. A restore leads the machine back to
/// PreSupervision before the emitted event is settled.
fn filler(writer: &mut Writer, required: ComponentId) -> Event {
    if writer.random.one_in(4) {
        Event::Restored(required)
    } else {
        writer.any_event()
    }
}

/// The rest of the dispatch in any mood, and one event more.
fn after(writer: &mut Writer) {
    let mood = writer.random.pick(&MOODS);
    writer.replies(mood);
    if writer.random.one_in(4) {
        writer.strew();
    }
    let event = writer.any_event();
    writer.begin(event);
    // Now and then the next machine is made while an effect waits.
    if !writer.random.one_in(8) {
        writer.replies(mood);
    }
}

/// A history up to the first effect of a cascade.
fn in_a_cascade(random: &mut SplitMix64) -> Writer<'_> {
    let entries = beside_a_cascade(random);
    let root = entries[1].0;
    let max_retry = draw_max_retry(random);
    let mut writer = Writer::new(random, entries, max_retry);
    writer.power_good();
    writer.begin(Event::CorruptionDetected(root));
    writer
}

/// A cascade whose replies fill the queue, and what follows.
fn cascade_flood(random: &mut SplitMix64) -> History {
    let mut writer = in_a_cascade(random);
    for _ in 0..QUEUE {
        let event = writer.any_event();
        writer.reply(Reply::Then(event));
    }
    writer.replies(Mood::Flooding);
    after(&mut writer);
    writer.finish()
}

/// A cascade whose replies queue a few events, which one call then settles: in
/// Locked after a failure, or because the state has no rule for them.
fn drained(random: &mut SplitMix64) -> History {
    let mut writer = in_a_cascade(random);
    let fails = writer.random.one_in(2);
    // The numbers that other scenes seldom reach come more often.
    for _ in 0..writer.random.pick(&[3, 4, 4, 5, 5, 5, 6, 6, 6, 7, QUEUE]) {
        let event = if fails {
            writer.any_event()
        } else {
            inapt_event(writer.random, &writer.entries)
        };
        writer.reply(Reply::Then(event));
    }
    if fails {
        writer.reply(Reply::Failed);
    }
    writer.replies(Mood::Calm);
    after(&mut writer);
    writer.finish()
}

/// A chain of at most `most` components, the first of them Required.
pub fn led_by_required(random: &mut SplitMix64, most: usize) -> Vec<Entry> {
    let length = random.between(1, most);
    let mut entries = accepted(random, length);
    entries[0].1.failure_policy = FailurePolicy::Required;
    entries
}

/// A chain that is led to Ready without a fault, and then what Ready and
/// Updating have rules for.
pub fn in_service(random: &mut SplitMix64) -> History {
    let entries = led_by_required(random, 3);
    let max_retry = draw_max_retry(random);
    let mut writer = Writer::new(random, entries, max_retry);
    writer.power_good();
    while release_next(&mut writer) {
        if let State::AwaitingReady(Some(id)) = writer.machine.state()
            && writer.random.one_in(2)
        {
            writer.dispatch(Event::ComponentReady(id), Mood::Calm);
        }
    }
    for _ in 0..writer.random.between(10, 16) {
        let event = writer.apt_event();
        let mood = writer
            .random
            .pick(&[Mood::Calm, Mood::Calm, Mood::Reporting]);
        writer.dispatch(event, mood);
    }
    // The next machine is made while an effect waits, if there is one.
    let event = writer.apt_event();
    writer.begin(event);
    writer.finish()
}

/// A failure at any one effect of a dispatch, those before it done. Where the
/// chain is in service first, the effects of updates come too.
pub fn failed_effect(random: &mut SplitMix64) -> History {
    let entries = led_by_required(random, 5);
    let max_retry = draw_max_retry(random);
    let mut writer = Writer::new(random, entries, max_retry);
    writer.power_good();
    let served = writer.random.one_in(2);
    while served && release_next(&mut writer) {}
    for _ in 0..writer.random.below(8) {
        let event = writer.apt_event();
        writer.dispatch(event, Mood::Calm);
    }
    let event = writer.apt_event();
    writer.begin(event);
    for _ in 0..writer.random.below(5) {
        if writer.machine.waiting().is_some() {
            writer.reply(Reply::Done);
        }
    }
    writer.reply(Reply::Failed);
    after(&mut writer);
    writer.finish()
}

/// The component that the walk is at passes, if it is at one.
pub fn release_next(writer: &mut Writer) -> bool {
    let Some(id) = writer.at_cursor() else {
        return false;
    };
    writer.dispatch(Event::VerificationPassed(id), Mood::Calm);
    true
}

/// The longest chain: all are released, and a fault of the first one holds all.
pub fn large(random: &mut SplitMix64) -> History {
    let mut entries = accepted(random, LONGEST);
    let in_a_row = random.one_in(2);
    for place in 1..LONGEST {
        let on = if in_a_row { place - 1 } else { 0 };
        entries[place].1.depends_on = Some(entries[on].0);
    }
    entries[0].1.failure_policy = FailurePolicy::Cascading;
    let first = entries[0].0;
    let max_retry = draw_max_retry(random);
    let mut writer = Writer::new(random, entries, max_retry);
    writer.power_good();
    while release_next(&mut writer) {}
    let event = fatal(writer.random, first);
    writer.begin(event);
    // Most of the batch is done; the rest in another mood.
    let done = writer.random.between(400, 511);
    for _ in 0..done {
        writer.reply(Reply::Done);
    }
    after(&mut writer);
    writer.finish()
}

/// Machines that no history leads to, each with a few events.
pub fn set_up_machines(random: &mut SplitMix64) -> History {
    let entries = led_by_required(random, 6);
    let max_retry = if random.one_in(3) {
        u8::MAX
    } else {
        draw_max_retry(random)
    };
    let mut writer = Writer::new(random, entries, max_retry);
    for _ in 0..writer.random.between(3, 8) {
        set_up_one(&mut writer);
    }
    writer.finish()
}

fn set_up_one(writer: &mut Writer) {
    let (machine, event) = draw_set_up(writer);
    writer.set_up(machine);
    let mood = writer.random.pick(&MOODS);
    writer.begin(event);
    // Now and then the next machine is set up while an effect waits.
    if !writer.random.one_in(4) {
        writer.replies(mood);
    }
}

/// A machine and the event that makes it matter.
fn draw_set_up(writer: &mut Writer) -> (Machine, Event) {
    let ids = ids(&writer.entries);
    let random = &mut *writer.random;
    let mut machine = draw_machine(random, &writer.entries);
    let place = random.below(ids.len());
    let id = ids[place];
    match random.below(4) {
        0 => {
            machine.state = State::AwaitingReady(Some(id));
            machine.cursor = ids.len() as u8;
            (machine, Event::ComponentReady(id))
        }
        1 => {
            machine.state = random.pick(&[State::PreSupervision, State::AwaitingReady(None)]);
            machine.cursor = place as u8;
            machine.statuses = draw_statuses(random, ids.len());
            machine.statuses[place].isolated = true;
            let other = random.pick(&ids);
            (machine, Event::CorruptionDetected(other))
        }
        2 => {
            machine.state = State::Recovering(ids[0]);
            machine.statuses[0].retry = u8::MAX;
            (machine, Event::Restored(ids[0]))
        }
        _ => {
            let event = draw_event(random, &writer.entries, &machine);
            (machine, event)
        }
    }
}
