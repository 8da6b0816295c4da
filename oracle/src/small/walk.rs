//! The walk over the machines at rest of one chain with one max_retry: breadth
//! first from `new`, up to the fixed point.

use std::collections::HashSet;

use openprot_orchestrator_sm::{Effect, Event};

use super::Visit;
use super::alphabet::{begun, fed, overtaking, reports};
use super::chains::varies_replies;
use crate::histories::stepwise::Stepwise;
use crate::histories::{Call, History, Reply};
use crate::lists::answer::chain;
use crate::lists::{Entry, List};
use crate::steps::answer::{Rust, set_up};
use crate::steps::numbers::{event_fields, state_parts};
use crate::steps::{Case, Machine};

/// A machine at rest that was reached.
struct Reached {
    machine: Machine,
    depth: usize,
    /// The machine before it, by its place, and the calls of the dispatch that
    /// led on from there.
    last: Option<(usize, Vec<Call>)>,
}

/// The fields of a machine. The Rust's types cannot be put into a set.
type Key = (u8, Option<u8>, u8, bool, Vec<(bool, u8, bool, bool)>);

fn key(machine: &Machine) -> Key {
    let (state, payload) = state_parts(machine.state);
    let statuses = machine.statuses.iter();
    (
        state,
        payload.map(|id| id.get()),
        machine.cursor,
        machine.window,
        statuses
            .map(|s| (s.isolated, s.retry, s.awaiting_boot, s.released))
            .collect(),
    )
}

pub struct Walk {
    entries: Vec<Entry>,
    max_retry: u8,
    /// In the order in which they were reached; those before `next` are visited.
    reached: Vec<Reached>,
    next: usize,
    /// The machines in `reached`, and the single steps taken.
    known: HashSet<Key>,
    stepped: HashSet<(Key, [u16; 4])>,
    /// Makes the dispatches. The comparison holds it to `dispatch_with`.
    stepwise: Stepwise,
}

impl Walk {
    /// The entries are an accepted chain.
    pub fn new(entries: Vec<Entry>, max_retry: u8) -> Self {
        let rust = Rust::new(chain(&entries).expect("an accepted chain"), max_retry);
        let stepwise = Stepwise::new(rust, max_retry, entries.clone());
        let mut walk = Self {
            stepwise: stepwise.silent().keeping(),
            entries,
            max_retry,
            reached: Vec::new(),
            next: 0,
            known: HashSet::new(),
            stepped: HashSet::new(),
        };
        walk.reach(walk.stepwise.machine(), 0, None);
        walk
    }

    /// A machine at rest, unless it was reached before.
    fn reach(&mut self, machine: Machine, depth: usize, last: Option<(usize, Vec<Call>)>) {
        if self.known.insert(key(&machine)) {
            self.reached.push(Reached {
                machine,
                depth,
                last,
            });
        }
    }

    /// `new`, and the dispatches that lead to the machine at this place.
    fn path(&self, place: usize) -> Vec<Call> {
        match &self.reached[place].last {
            Some((before, calls)) => [self.path(*before), calls.clone()].concat(),
            None => vec![Call::New {
                max_retry: self.max_retry,
                list: List::whole(self.entries.clone()),
            }],
        }
    }

    fn visit(&mut self, place: usize) -> Visit {
        let start = self.reached[place].machine.clone();
        let events = begun(&self.entries, start.state);
        // Where nothing is begun, the path would only repeat other visits.
        let to = if events.is_empty() { 0 } else { place };
        let mut visiting = Visiting {
            visit: Visit {
                history: History::new(self.path(to)),
                steps: Vec::new(),
                entries: self.entries.clone(),
                max_retry: self.max_retry,
                depth: self.reached[place].depth,
                dispatches: 0,
                settled: 0,
            },
            walk: self,
            place,
            start,
            moved: false,
        };
        for event in events {
            visiting.every_reply(event);
        }
        visiting.visit
    }
}

impl Iterator for Walk {
    type Item = Visit;

    fn next(&mut self) -> Option<Visit> {
        let place = self.next;
        if place == self.reached.len() {
            return None;
        }
        self.next += 1;
        Some(self.visit(place))
    }
}

/// The dispatches from one machine.
struct Visiting<'a> {
    walk: &'a mut Walk,
    place: usize,
    start: Machine,
    /// Whether the last dispatch has left another machine than the start.
    moved: bool,
    visit: Visit,
}

/// How the effects of a dispatch are replied to. What is not named is done.
#[derive(Clone, Copy)]
enum Replies {
    Done,
    /// Another reply to the effect at this place.
    At(usize, Reply),
    /// The best report to each effect that asks for one, or the worst.
    Best,
    Worst,
    /// These events to the first effects.
    First([Event; 3]),
}

impl Replies {
    fn to(self, effect: Effect, place: usize, entries: &[Entry]) -> Reply {
        let report = match self {
            Replies::At(other, reply) if other == place => return reply,
            Replies::Done | Replies::At(..) => None,
            Replies::Best => reports(entries, effect).first().copied(),
            Replies::Worst => reports(entries, effect).last().copied(),
            Replies::First(events) => events.get(place).copied(),
        };
        report.map_or(Reply::Done, Reply::Then)
    }
}

impl Visiting<'_> {
    /// The event with all effects done, and with other replies where the chain
    /// gets them: a failure at each effect, events fed back at each effect,
    /// reports to all of them, and events that overtake RecoveryFailed.
    fn every_reply(&mut self, event: Event) {
        let effects = self.dispatch(event, Replies::Done);
        if !varies_replies(&self.walk.entries) {
            return;
        }
        let mut asks = false;
        for (place, effect) in effects.iter().enumerate() {
            self.dispatch(event, Replies::At(place, Reply::Failed));
            for follow_up in fed(&self.walk.entries, *effect, place == 0) {
                self.dispatch(event, Replies::At(place, Reply::Then(follow_up)));
            }
            asks |= !reports(&self.walk.entries, *effect).is_empty();
        }
        if asks {
            self.dispatch(event, Replies::Best);
            self.dispatch(event, Replies::Worst);
        }
        for events in overtaking(&self.walk.entries, &effects) {
            self.dispatch(event, Replies::First(events));
        }
    }

    /// One dispatch. Gives the effects.
    fn dispatch(&mut self, event: Event, replies: Replies) -> Vec<Effect> {
        let walk = &mut *self.walk;
        let rust = set_up(&walk.entries, walk.max_retry, &self.start);
        walk.stepwise.set_up(rust);
        let mut calls = vec![Call::Begin(event)];
        let mut effects = Vec::new();
        walk.stepwise.begin(event);
        while let Some(effect) = walk.stepwise.waiting() {
            let reply = replies.to(effect, effects.len(), &walk.entries);
            walk.stepwise.reply(reply);
            calls.push(Call::Reply(reply));
            effects.push(effect);
        }
        self.note_steps();
        self.note_calls(calls);
        effects
    }

    /// The single steps of the dispatch that has ended.
    fn note_steps(&mut self) {
        let walk = &mut *self.walk;
        let kept = walk.stepwise.kept();
        self.visit.settled += kept.len() as u64;
        for (machine, event) in kept {
            let step = (key(machine), event_fields(event));
            if walk.stepped.insert(step) {
                self.visit.steps.push(Case {
                    max_retry: walk.max_retry,
                    entries: walk.entries.clone(),
                    machine: machine.clone(),
                    event: *event,
                });
            }
        }
    }

    /// The calls of the dispatch that has ended, and the machine it left. No
    /// set-up is needed where the machine at hand is the start still.
    fn note_calls(&mut self, calls: Vec<Call>) {
        let visit = &mut self.visit;
        visit.dispatches += 1;
        if self.moved {
            visit.history.calls.push(Call::SetUp(self.start.clone()));
        }
        visit.history.calls.extend(calls.iter().cloned());
        let end = self.walk.stepwise.machine();
        self.moved = end != self.start;
        if self.moved {
            let last = Some((self.place, calls));
            self.walk.reach(end, self.visit.depth + 1, last);
        }
    }
}

#[cfg(test)]
mod tests {
    use openprot_orchestrator_sm::{FailurePolicy, PowerOnResult};

    use super::super::chains::chains;
    use super::*;
    use crate::histories::answer::answer;
    use crate::histories::{Answer, Called};

    fn walk(max_retry: u8) -> Walk {
        Walk::new(chains(1).remove(0), max_retry)
    }

    fn machines(mut walk: Walk) -> Vec<String> {
        while walk.next().is_some() {}
        let texts = walk.reached.iter().map(|r| r.machine.to_string());
        let mut texts: Vec<String> = texts.collect();
        texts.sort();
        texts
    }

    /// Component 9 alone, Required, max_retry 1: every restore exhausts.
    /// Worked out by hand. A machine is `state payload cursor window`, then
    /// `isolated retry awaiting_boot released`.
    #[test]
    fn the_machines_of_one_required_component() {
        let expected = [
            // Before the walk, and in it.
            "0 256 0 0 0 0 0 0",
            "1 256 0 0 0 0 0 0",
            // Ready: booted or not, with the window closed or open.
            "3 256 1 0 0 0 0 1",
            "3 256 1 0 0 0 1 1",
            "3 256 1 1 0 0 0 1",
            "3 256 1 1 0 0 1 1",
            // Updating closes the window.
            "4 256 1 0 0 0 0 1",
            "4 256 1 0 0 0 1 1",
            // Recovering from the walk, and from after it.
            "5 9 0 0 0 0 0 0",
            "5 9 1 0 0 0 0 0",
            // Locked from each of these, ...
            "6 256 0 0 0 0 0 0",
            // ... after one restore, or after one more that was fed back ...
            "6 256 0 0 0 1 0 0",
            "6 256 0 0 0 2 0 0",
            "6 256 1 0 0 0 0 0",
            "6 256 1 0 0 0 0 1",
            "6 256 1 0 0 0 1 1",
            // ... and the same from after the walk, and with the window open.
            "6 256 1 0 0 1 0 0",
            "6 256 1 0 0 2 0 0",
            "6 256 1 1 0 0 0 1",
            "6 256 1 1 0 0 1 1",
        ];
        assert_eq!(machines(walk(1)), expected);
    }

    #[test]
    fn with_max_retry_2_a_restore_walks_again() {
        let machines = machines(walk(2));
        assert!(machines.contains(&"1 256 0 0 0 1 0 0".to_string()));
    }

    /// Component 9 is Required and 4 Isolable. Its boot failed and its restore
    /// exhausts recovery; 4 times out and is restored before RecoveryFailed is
    /// taken, which PreSupervision then has no rule for.
    #[test]
    fn a_required_component_is_walked_again_with_its_retry_at_max_retry() {
        let chain = chains(2).into_iter().find(|entries| {
            let policies = entries.iter().map(|(_, attrs)| attrs.failure_policy);
            policies.eq([FailurePolicy::Required, FailurePolicy::Isolable])
        });
        let machines = machines(Walk::new(chain.unwrap(), 1));
        assert!(machines.contains(&"1 256 0 0 0 1 0 0 1 0 0 0".to_string()));
    }

    /// The reason why the long chains leave out one of them.
    #[test]
    fn max_retry_0_and_1_are_walked_alike() {
        for entries in chains(1) {
            let calls = |max_retry| -> Vec<Vec<Call>> {
                let walk = Walk::new(entries.clone(), max_retry);
                walk.map(|visit| visit.history.calls[1..].to_vec())
                    .collect()
            };
            assert_eq!(calls(0), calls(1));
        }
    }

    /// Each visit goes from `new` to its machine by begins and replies alone,
    /// and is there when the first event is begun.
    #[test]
    fn a_visit_leads_from_new_to_its_machine() {
        let mut walk = walk(2);
        for place in 0.. {
            let Some(visit) = walk.next() else { break };
            let length = walk.path(place).len();
            let mut set_ups = visit.history.calls[..length].iter();
            assert!(!set_ups.any(|call| matches!(call, Call::SetUp(_))));
            if place > 0 {
                let answers = answer(&visit.history).answers;
                let Answer::Called(Called { machine, .. }) = &answers[length - 1] else {
                    panic!("a call on the machine");
                };
                assert_eq!(*machine, walk.reached[place].machine);
            }
        }
    }

    #[test]
    fn reports_to_every_effect_lead_through_the_walk() {
        let visit = walk(1).next().unwrap();
        let id = chains(1)[0][0].0;
        let best = [
            Call::Begin(Event::PowerGood(PowerOnResult::Provisioned)),
            Call::Reply(Reply::Done),
            Call::Reply(Reply::Then(Event::VerificationPassed(id))),
            Call::Reply(Reply::Then(Event::Booted(id))),
        ];
        let calls = &visit.history.calls;
        assert!(calls.windows(best.len()).any(|some| *some == best));
    }
}
