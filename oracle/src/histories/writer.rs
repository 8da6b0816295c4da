//! Writes a history call by call, beside a machine that follows it, so that the
//! next call can depend on where the machine is.

use openprot_orchestrator_sm::{ComponentId, Effect, Event, PowerOnResult};

use super::events::{any_event, apt_event, outside_event, report};
use super::stepwise::{QUEUE, Stepwise};
use super::{Call, History, Reply};
use crate::lists::answer::chain;
use crate::lists::{Entry, List};
use crate::random::SplitMix64;
use crate::steps::answer::{Rust, set_up};
use crate::steps::generate::cases;
use crate::steps::{Case, Machine};

/// How the effects of a dispatch are replied to.
#[derive(Clone, Copy, PartialEq, Eq, Debug)]
pub enum Mood {
    /// Done.
    Calm,
    /// The report that the effect asks for, mostly a good one.
    Reporting,
    /// Events, until the queue is full and longer.
    Flooding,
    /// A failure at any effect.
    Failing,
    /// Anything.
    Mixed,
}

pub const MOODS: [Mood; 5] = [
    Mood::Calm,
    Mood::Reporting,
    Mood::Flooding,
    Mood::Failing,
    Mood::Mixed,
];

pub struct Writer<'a> {
    pub random: &'a mut SplitMix64,
    pub entries: Vec<Entry>,
    max_retry: u8,
    pub machine: Stepwise,
    calls: Vec<Call>,
}

impl<'a> Writer<'a> {
    /// A history on a new machine. The entries are an accepted chain.
    pub fn new(random: &'a mut SplitMix64, entries: Vec<Entry>, max_retry: u8) -> Self {
        let rust = Rust::new(chain(&entries).expect("an accepted chain"), max_retry);
        let list = List::whole(entries.clone());
        Self {
            random,
            max_retry,
            machine: Stepwise::new(rust, max_retry, entries.clone()).silent(),
            entries,
            calls: vec![Call::New { max_retry, list }],
        }
    }

    pub fn finish(self) -> History {
        History::new(self.calls)
    }

    pub fn calls(&self) -> usize {
        self.calls.len()
    }

    pub fn begin(&mut self, event: Event) {
        self.machine.begin(event);
        self.calls.push(Call::Begin(event));
    }

    pub fn reply(&mut self, reply: Reply) {
        self.machine.reply(reply);
        self.calls.push(Call::Reply(reply));
    }

    /// A failure that these events take the place of.
    pub fn fail_planted(&mut self, events: Vec<Event>) {
        self.machine.fail_planted(&events);
        self.calls.push(Call::Planted(events));
    }

    pub fn set_up(&mut self, machine: Machine) {
        let rust = set_up(&self.entries, self.max_retry, &machine);
        self.machine.set_up(rust);
        self.calls.push(Call::SetUp(machine));
    }

    /// A line that the machine at hand has no part in.
    fn step(&mut self, case: Case) {
        self.calls.push(Call::Step(case));
    }

    /// A line that mostly changes nothing: a reply where nothing waits, an event
    /// about an id outside the chain, or a single step.
    pub fn strew(&mut self) {
        let event = self.any_event();
        match self.random.below(10) {
            0 | 1 => self.reply(Reply::Done),
            2 | 3 => self.reply(Reply::Then(event)),
            4 | 5 => self.reply(Reply::Failed),
            6 | 7 => {
                let state = self.machine.state();
                let event = outside_event(self.random, &self.entries, state);
                self.dispatch(event, Mood::Calm);
            }
            _ => {
                let seed = self.random.next_u64();
                let case = cases(seed).find(|case| case.entries.len() < 7);
                self.step(case.expect("most cases are short"));
            }
        }
    }

    /// The machine is provisioned, now and then after an event that
    /// PowerOnReset has no rule for.
    pub fn power_good(&mut self) {
        if self.random.one_in(8) {
            let id = self.entries[0].0;
            let event = self.random.pick(&[
                Event::VerificationPassed(id),
                Event::Restored(id),
                Event::RecoveryFailed,
                Event::CommitTimeout,
            ]);
            self.dispatch(event, Mood::Calm);
        }
        self.dispatch(Event::PowerGood(PowerOnResult::Provisioned), Mood::Calm);
    }

    /// An event, with replies to its effects up to the end of the dispatch.
    pub fn dispatch(&mut self, event: Event, mood: Mood) {
        self.begin(event);
        self.replies(mood);
    }

    /// Where a recovery is reported to have failed, the event as the reply.
    pub fn reply_once_more(&mut self, event: Event) {
        if let Some(Effect::ReportRecoveryFailed(_)) = self.machine.waiting() {
            self.reply(Reply::Then(event));
        }
    }

    /// Replies up to the end of the dispatch, with refused begins among them.
    pub fn replies(&mut self, mood: Mood) {
        while let Some(effect) = self.machine.waiting() {
            if self.random.one_in(40) {
                let event = self.any_event();
                self.begin(event);
            }
            let reply = self.draw_reply(effect, mood);
            self.reply(reply);
        }
    }

    pub fn any_event(&mut self) -> Event {
        any_event(self.random, &self.entries)
    }

    pub fn apt_event(&mut self) -> Event {
        let machine = self.machine.machine();
        apt_event(self.random, &self.entries, &machine)
    }

    /// An apt event, but none of the two that do nothing but lock.
    pub fn not_locking_event(&mut self) -> Event {
        loop {
            let event = self.apt_event();
            if !matches!(event, Event::EffectFailed | Event::RecoveryFailed) {
                return event;
            }
        }
    }

    pub fn done_if_waiting(&mut self) {
        if self.machine.waiting().is_some() {
            self.reply(Reply::Done);
        }
    }

    fn draw_reply(&mut self, effect: Effect, mood: Mood) -> Reply {
        // After a failure that is not planted nothing but LatchLockdown can fail.
        if effect == Effect::LatchLockdown && self.random.one_in(2) {
            return Reply::Failed;
        }
        match (mood, self.random.below(8)) {
            (Mood::Calm, _) => Reply::Done,
            (Mood::Reporting, 0) => Reply::Done,
            (Mood::Reporting, _) => report(self.random, effect).map_or(Reply::Done, Reply::Then),
            (Mood::Flooding, chance) => self.flood(effect, chance),
            (Mood::Failing, 0..=2) => Reply::Failed,
            (Mood::Failing, 3 | 4) => Reply::Then(self.any_event()),
            (Mood::Failing, _) => Reply::Done,
            (Mood::Mixed, 0) => Reply::Failed,
            (Mood::Mixed, 1 | 2) => Reply::Then(self.fed_event(effect)),
            (Mood::Mixed, _) => Reply::Done,
        }
    }

    /// An event until the queue is full; then one that is lost, a failure, or
    /// done.
    fn flood(&mut self, effect: Effect, chance: usize) -> Reply {
        let full = self.machine.queued() == QUEUE;
        match chance {
            0..=2 if full => Reply::Failed,
            3 if full => Reply::Done,
            _ => Reply::Then(self.fed_event(effect)),
        }
    }

    /// An event as a reply: a report, one that the state has a rule for, or any.
    fn fed_event(&mut self, effect: Effect) -> Event {
        match self.random.below(4) {
            0 => self.any_event(),
            1 => self.apt_event(),
            _ => {
                let any = self.any_event();
                report(self.random, effect).unwrap_or(any)
            }
        }
    }

    /// The id of the component at the cursor, if the walk is at one.
    pub fn at_cursor(&self) -> Option<ComponentId> {
        let cursor = self.machine.machine().cursor;
        self.entries.get(usize::from(cursor)).map(|(id, _)| *id)
    }
}
