//! A machine that is asked call by call. `dispatch_with` runs to its end and
//! shows neither its queue nor the machine while an effect waits; this one
//! does. It takes every step by the Rust's own `step`, and only the queue is
//! written here. `answer` holds its effects and its machines to those of
//! `dispatch_with`, so that a queue that is not the Rust's ends the run.

use std::collections::VecDeque;

use openprot_orchestrator_sm::{Effect, Event, State};

use super::Reply;
use super::corners::{
    Origin, Taken, begun, call_settled, ended, failed_at, handed, is_noted_of_set_up, number_of,
    taken,
};
use crate::lists::Entry;
use crate::steps::answer::{Rust, read};
use crate::steps::{Answer, Case, Machine};

/// The events that the Rust's queue holds.
pub const QUEUE: usize = 8;

/// The effects of a batch from this place on are counted apart.
const FAR: usize = 256;

pub struct Stepwise {
    rust: Rust,
    max_retry: u8,
    entries: Vec<Entry>,
    queue: VecDeque<(Event, Origin)>,
    /// The effects of the batch that are not handed out yet, and how many were.
    batch: VecDeque<Effect>,
    place: usize,
    waiting: Option<Effect>,
    failures: usize,
    /// Whether an event was lost in this batch and the batch goes on.
    lost: bool,
    /// Whether the last dispatch that failed has ended in another state than
    /// Locked.
    survived: bool,
    /// The events taken in this dispatch, and those taken in this call.
    dispatch_taken: usize,
    call_taken: usize,
    /// Whether the machine or its queue was set up, and not led to by a history.
    set_up: bool,
    /// Whether corners are noted; who only follows a history has no use for them.
    noting: bool,
    corners: Vec<String>,
    /// Whether the steps of a dispatch are kept, and those kept: each event with
    /// the machine that took it.
    keeping: bool,
    kept: Vec<(Machine, Event)>,
    events: u64,
}

impl Stepwise {
    /// A machine for the entries, with nothing waiting or queued.
    pub fn new(rust: Rust, max_retry: u8, entries: Vec<Entry>) -> Self {
        Self {
            rust,
            max_retry,
            entries,
            queue: VecDeque::new(),
            batch: VecDeque::new(),
            place: 0,
            waiting: None,
            failures: 0,
            lost: false,
            survived: false,
            dispatch_taken: 0,
            call_taken: 0,
            set_up: false,
            noting: true,
            corners: Vec::new(),
            keeping: false,
            kept: Vec::new(),
            events: 0,
        }
    }

    /// The same machine, with no corner noted.
    pub fn silent(self) -> Self {
        Self {
            noting: false,
            ..self
        }
    }

    /// The same machine, which keeps the steps of the last dispatch.
    pub fn keeping(self) -> Self {
        Self {
            keeping: true,
            ..self
        }
    }

    /// The same machine in another situation, with nothing waiting or queued.
    pub fn set_up(&mut self, rust: Rust) {
        let entries = std::mem::take(&mut self.entries);
        *self = Self {
            set_up: true,
            noting: self.noting,
            keeping: self.keeping,
            corners: std::mem::take(&mut self.corners),
            events: self.events,
            ..Self::new(rust, self.max_retry, entries)
        };
    }

    pub fn machine(&self) -> Machine {
        read(&self.rust)
    }

    pub fn state(&self) -> State {
        self.rust.state()
    }

    pub fn waiting(&self) -> Option<Effect> {
        self.waiting
    }

    pub fn queued(&self) -> usize {
        self.queue.len()
    }

    /// Whether this dispatch has failed.
    pub fn has_failed(&self) -> bool {
        self.failures > 0
    }

    /// The events that the last call has taken.
    pub fn call_taken(&self) -> usize {
        self.call_taken
    }

    /// The events that have been taken by all calls.
    pub fn events(&self) -> u64 {
        self.events
    }

    /// The events taken since the last begin, each with the machine before it.
    pub fn kept(&self) -> &[(Machine, Event)] {
        &self.kept
    }

    pub fn into_corners(self) -> Vec<String> {
        self.corners
    }

    /// No call follows, though an effect waits.
    pub fn leave(&mut self) {
        self.mark("dispatch_left_unfinished");
    }

    /// Document 01's number for `begin`.
    pub fn begin(&mut self, event: Event) -> u8 {
        if self.waiting.is_some() {
            self.mark("refused_begin");
            return 10;
        }
        for name in begun(&event, self.state(), &self.entries) {
            self.mark(&name);
        }
        self.kept.clear();
        self.queue.push_back((event, Origin::Begun));
        self.settle();
        0
    }

    /// Document 01's number for `reply`.
    pub fn reply(&mut self, reply: Reply) -> u8 {
        let name = match reply {
            Reply::Done => "done",
            Reply::Then(_) => "then",
            Reply::Failed => "failed",
        };
        let Some(effect) = self.waiting.take() else {
            self.mark(&format!("refused_reply_{name}"));
            return 7;
        };
        self.mark(&format!("replied_{name}"));
        match reply {
            Reply::Done => {}
            Reply::Then(event) => {
                self.mark(&format!("replied_then_{}", number_of(&event)));
                self.enqueue(event, Origin::Fed(effect));
            }
            Reply::Failed => {
                self.mark(&failed_at(&effect));
                self.fail();
            }
        }
        self.settle();
        0
    }

    /// The number for a failed `reply` whose failure is planted: if it is the
    /// first one of its dispatch, the events stand in the place of EffectFailed.
    pub fn fail_planted(&mut self, events: &[Event]) -> u8 {
        if self.waiting.is_none() {
            return self.reply(Reply::Failed);
        }
        self.set_up = true;
        if self.has_failed() {
            self.mark("planted_in_vain");
            return self.reply(Reply::Failed);
        }
        self.mark("planted");
        self.waiting = None;
        let full = self.queue.len() == QUEUE;
        self.fail();
        self.queue.pop_front();
        if full {
            for (_, origin) in &mut self.queue {
                *origin = Origin::Kept;
            }
        }
        for event in events.iter().rev() {
            self.queue.push_front((*event, Origin::Planted));
        }
        self.queue.truncate(QUEUE);
        self.settle();
        0
    }

    /// Notes a corner. Of a machine that was set up only those are noted that
    /// it was set up for.
    fn mark(&mut self, name: &str) {
        if !self.noting {
            return;
        }
        if !self.set_up {
            self.corners.push(name.into());
        } else if is_noted_of_set_up(name) {
            self.corners.push(format!("set_up_{name}"));
        }
    }

    /// Up to the next effect or the end of the dispatch.
    fn settle(&mut self) {
        self.call_taken = 0;
        while self.waiting.is_none() {
            if let Some(effect) = self.batch.pop_front() {
                self.hand_out(effect);
            } else if let Some((event, origin)) = self.queue.pop_front() {
                self.take(event, origin);
            } else {
                self.end();
                break;
            }
        }
        self.mark(&call_settled(self.call_taken));
    }

    fn hand_out(&mut self, effect: Effect) {
        self.place += 1;
        if let Effect::Emit(event) = effect {
            self.mark(if self.queue.len() == QUEUE {
                "emit_found_8_queued"
            } else {
                "emit_queued"
            });
            self.enqueue(event, Origin::Emitted);
            return;
        }
        self.mark(&handed(&effect));
        if self.lost {
            self.mark("handed_after_a_loss");
        }
        if self.place > FAR {
            self.mark("handed_past_place_256");
        }
        self.waiting = Some(effect);
    }

    /// An event to the back of the queue; where it is full, a failure.
    fn enqueue(&mut self, event: Event, origin: Origin) {
        if self.queue.len() < QUEUE {
            self.queue.push_back((event, origin));
            if self.queue.len() == QUEUE {
                self.mark("queue_filled");
            }
            return;
        }
        if self.failures > 0 {
            self.lost = true;
            self.mark(match origin {
                Origin::Emitted => "emit_lost_after_a_failure",
                _ => "reply_lost_after_a_failure",
            });
            return;
        }
        if let Origin::Fed(_) = origin {
            self.mark("reply_found_8_queued");
        }
        self.latch();
    }

    fn fail(&mut self) {
        let left = !self.batch.is_empty();
        if self.failures > 0 && self.state() != State::Locked {
            self.mark("later_failure_not_locked");
        }
        match self.failures {
            0 => {
                self.mark(if left {
                    "first_failure_with_effects_left"
                } else {
                    "first_failure_at_the_last_effect"
                });
                self.mark(match self.queue.len() {
                    0 => "first_failure_queue_empty",
                    QUEUE => "first_failure_queue_full",
                    _ => "first_failure_queue_of_1_to_7",
                });
                self.latch();
            }
            1 => {
                self.failures = 2;
                self.mark("second_failure");
                if left {
                    self.mark("second_failure_with_effects_left");
                }
            }
            _ => self.mark("third_failure"),
        }
        self.batch.clear();
    }

    /// The first failure in a dispatch.
    fn latch(&mut self) {
        if self.survived {
            self.mark("first_failure_after_a_survived_one");
        }
        self.failures = 1;
        self.batch.clear();
        if self.queue.len() == QUEUE {
            self.queue.pop_back();
            self.mark("newest_put_out");
        }
        self.queue
            .push_front((Event::EffectFailed, Origin::Latched));
    }

    fn take(&mut self, event: Event, origin: Origin) {
        let before = (self.noting || self.keeping).then(|| self.machine());
        let sink = self.rust.step_once(&event);
        self.batch.extend(sink.effects());
        self.place = 0;
        self.lost = false;
        self.call_taken += 1;
        self.dispatch_taken += 1;
        self.events += 1;
        let Some(before) = before else { return };
        if self.keeping {
            self.kept.push((before.clone(), event));
        }
        if self.noting {
            self.note_step(before, event, origin, sink.effects());
        }
    }

    /// The corners of one step, which began at the machine `before`.
    fn note_step(&mut self, before: Machine, event: Event, origin: Origin, effects: &[Effect]) {
        let case = Case {
            max_retry: self.max_retry,
            entries: std::mem::take(&mut self.entries),
            machine: before,
            event,
        };
        let answer = Answer {
            machine: self.machine(),
            effects: effects.to_vec(),
        };
        let names = taken(&Taken {
            case: &case,
            answer: &answer,
            origin,
        });
        self.entries = case.entries;
        for name in names {
            self.mark(&name);
        }
    }

    fn end(&mut self) {
        if self.noting {
            for name in ended(&self.machine(), self.dispatch_taken) {
                self.mark(&name);
            }
        }
        if self.has_failed() {
            self.survived = self.state() != State::Locked;
        }
        self.failures = 0;
        self.dispatch_taken = 0;
    }
}
