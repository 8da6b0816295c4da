//! The oracle's answers to a history: each event that is begun is one call of
//! the Rust's `dispatch_with`, whose callback gives the replies that follow.

use openprot_orchestrator_sm::{Effect, EffectError, Event};

use super::stepwise::Stepwise;
use super::{Answer, Answers, Call, Called, History, Reply};
use crate::lists::answer::{Answer as Verdict, answer as verdict, chain};
use crate::lists::{Entry, List};
use crate::steps::answer::{Rust, answer as step_answer, read, set_up};
use crate::steps::{Case, Machine};

/// The answers to a history.
pub fn answer(history: &History) -> Answers {
    answer_noting(history, true)
}

/// The answers to a history, with its corners or without those of its machine.
pub fn answer_noting(history: &History, noting: bool) -> Answers {
    let mut run = Run {
        rest: &history.calls,
        noting,
        in_vain: false,
        answers: Vec::new(),
        corners: Vec::new(),
    };
    let mut at_hand = None;
    while let Some(call) = run.next() {
        match call {
            Call::Step(case) => run.step(case),
            Call::New { max_retry, list } => at_hand = run.make(*max_retry, list),
            _ => match &mut at_hand {
                None => run.no_machine(),
                Some(machine) => run.call(call, machine),
            },
        }
    }
    let mut events = 0;
    if let Some(machine) = at_hand {
        events = machine.stepwise.events();
        run.corners.extend(machine.stepwise.into_corners());
    }
    Answers {
        answers: run.answers,
        corners: run.corners,
        events,
    }
}

/// The Rust's machine, and beside it the one that is asked call by call.
struct AtHand {
    entries: Vec<Entry>,
    max_retry: u8,
    rust: Rust,
    stepwise: Stepwise,
}

/// The calls that are not answered yet, and the answers so far.
struct Run<'a> {
    rest: &'a [Call],
    noting: bool,
    /// Whether events are planted that the Rust must not use.
    in_vain: bool,
    answers: Vec<Answer>,
    corners: Vec<String>,
}

impl<'a> Run<'a> {
    fn next(&mut self) -> Option<&'a Call> {
        let (call, rest) = self.rest.split_first()?;
        self.rest = rest;
        Some(call)
    }

    fn mark(&mut self, name: &str) {
        self.corners.push(name.into());
    }

    fn step(&mut self, case: &Case) {
        self.mark("one_step_between_calls");
        self.answers.push(Answer::Step(step_answer(case)));
    }

    fn no_machine(&mut self) {
        self.mark("no_machine");
        self.answers.push(Answer::NoMachine);
    }

    fn called(&mut self, number: u8, effect: Option<Effect>, machine: Machine) {
        self.answers.push(Answer::Called(Called {
            number,
            effect,
            machine,
        }));
    }

    /// The machine of a list, if it is accepted.
    fn make(&mut self, max_retry: u8, list: &List) -> Option<AtHand> {
        let answer = verdict(list);
        self.answers.push(Answer::New(answer));
        if answer != Verdict::ACCEPTED {
            self.mark("new_refused");
            return None;
        }
        self.mark("new_accepted");
        let new = || Rust::new(chain(&list.entries).expect("an accepted chain"), max_retry);
        let stepwise = Stepwise::new(new(), max_retry, list.entries.clone());
        Some(AtHand {
            entries: list.entries.clone(),
            max_retry,
            rust: new(),
            stepwise: if self.noting {
                stepwise
            } else {
                stepwise.silent()
            },
        })
    }

    /// A call while no effect waits.
    fn call(&mut self, call: &Call, at_hand: &mut AtHand) {
        match call {
            Call::Begin(event) => self.dispatch(*event, at_hand),
            Call::Reply(reply) => self.refuse(*reply, at_hand),
            Call::Planted(_) => self.refuse(Reply::Failed, at_hand),
            Call::SetUp(machine) => {
                let new = || set_up(&at_hand.entries, at_hand.max_retry, machine);
                at_hand.stepwise.set_up(new());
                at_hand.rust = new();
                self.called(0, None, read(&at_hand.rust));
            }
            Call::Step(_) | Call::New { .. } => unreachable!("answered without a machine"),
        }
    }

    /// A reply that no effect waits for.
    fn refuse(&mut self, reply: Reply, at_hand: &mut AtHand) {
        let number = at_hand.stepwise.reply(reply);
        assert_eq!(number, 7, "nothing waits");
        self.called(number, None, read(&at_hand.rust));
    }

    /// An event, with the replies to its effects.
    fn dispatch(&mut self, event: Event, at_hand: &mut AtHand) {
        let AtHand { rust, stepwise, .. } = at_hand;
        let mut unfinished = false;
        assert_eq!(stepwise.begin(event), 0, "nothing waits");
        rust.dispatch_with(event, |effect| {
            self.uproot();
            // The calls have ended: what the Rust makes of the rest is not asked.
            if unfinished {
                return Ok(None);
            }
            assert_eq!(stepwise.waiting(), Some(effect), "the Rust's effect");
            self.called(0, Some(effect), stepwise.machine());
            let reply = self.reply_to(effect, stepwise);
            unfinished = reply.is_none();
            reply.unwrap_or(Ok(None))
        });
        self.uproot();
        if unfinished {
            stepwise.leave();
            return;
        }
        assert_eq!(stepwise.waiting(), None, "the Rust has no effect left");
        assert_eq!(stepwise.machine(), read(rust), "the Rust's machine");
        self.called(0, None, read(rust));
    }

    /// The next reply. Calls before it that are no reply are answered; none is
    /// given where the machine at hand is asked no more.
    fn reply_to(
        &mut self,
        effect: Effect,
        stepwise: &mut Stepwise,
    ) -> Option<Result<Option<Event>, EffectError>> {
        loop {
            match self.rest.first()? {
                Call::SetUp(_) | Call::New { .. } => return None,
                Call::Step(case) => self.step(case),
                Call::Begin(event) => {
                    let number = stepwise.begin(*event);
                    assert_eq!(number, 10, "an effect waits");
                    self.called(number, Some(effect), stepwise.machine());
                }
                Call::Reply(reply) => {
                    self.next();
                    return Some(give(*reply, stepwise));
                }
                Call::Planted(events) => {
                    self.next();
                    self.in_vain = stepwise.has_failed();
                    assert_eq!(stepwise.fail_planted(events), 0, "an effect waits");
                    return Some(plant_failure(events));
                }
            }
            self.next();
        }
    }

    /// After a planted reply: the Rust puts an item in front at the first failure
    /// of a dispatch, and at no later one. What it has not used is taken away.
    fn uproot(&mut self) {
        let unused = heapless::plant::uproot();
        assert_eq!(unused, self.in_vain, "the Rust's first failure");
        self.in_vain = false;
    }
}

fn give(reply: Reply, stepwise: &mut Stepwise) -> Result<Option<Event>, EffectError> {
    assert_eq!(stepwise.reply(reply), 0, "an effect waits");
    reply.result()
}

/// A failed reply, with events planted for the Rust's queue.
fn plant_failure(events: &[Event]) -> Result<Option<Event>, EffectError> {
    heapless::plant::plant(events.to_vec());
    Reply::Failed.result()
}

#[cfg(test)]
mod tests {
    use std::panic::{AssertUnwindSafe, catch_unwind, resume_unwind};

    use super::super::generate::histories;
    use super::super::line::parse;
    use super::*;

    fn answers(text: &str) -> Vec<String> {
        let answers = answer(&parse(text).unwrap()).to_string();
        answers.split('\n').map(String::from).collect()
    }

    /// The effects that the answers give, without their values.
    fn effects(text: &str) -> Vec<u16> {
        answers(text)
            .iter()
            .skip(1)
            .map(|line| line.split(' ').nth(1).unwrap().parse().unwrap())
            .collect()
    }

    /// The sheet of document 01, section 5, with a refused begin and a refused
    /// reply.
    #[test]
    fn the_sheet_of_document_01() {
        let text = "256 2 1 7 0 0 0 256\n257 0 0 0 0\n257 5 0 0 0\n258\n258\n258\n257 1 7 0 0\n258";
        let expected = [
            "0 0 0",
            "0 0 7 0 0 1 256 0 0 0",
            "10 0 7 0 0 1 256 0 0 0",
            "0 1 7 0 0 1 256 0 0 0",
            "0 18 0 0 0 1 256 0 0 0 0 0 0 0 0 0 0 0",
            "7 18 0 0 0 1 256 0 0 0 0 0 0 0 0 0 0 0",
            "0 2 7 0 0 3 256 1 0 0",
            "0 18 0 0 0 3 256 1 0 0 0 0 0 0 0 0 1 1",
        ];
        assert_eq!(answers(text), expected);
    }

    #[test]
    fn without_a_machine_there_is_nothing_to_call() {
        assert_eq!(answers("257 0 0 0 0\n258\n262 0"), ["99", "99", "99"]);
        assert_eq!(answers("256 2 0\n260"), ["2 0 0", "99"]);
    }

    #[test]
    fn a_failure_latches_and_a_later_one_only_ends_its_batch() {
        let text = "256 2 1 7 0 0 0 256\n257 0 0 0 0\n260\n260";
        // ReadFirmware fails, LatchLockdown fails, the end.
        assert_eq!(effects(text), [0, 16, 18]);
    }

    /// Components 1 Required, 2 Cascading with 3, 4 and 5 on it: the cascade
    /// has eight effects. Verification of 1 fails and its recovery is
    /// unavailable, each under a full queue.
    #[test]
    fn emit_that_finds_8_queued_locks() {
        let head = "256 2 5 1 0 0 0 256 2 0 2 0 256 3 0 0 0 2 4 0 0 0 2 5 0 0 0 2";
        let fill = "\n259 16 0 0 0".repeat(6);
        let text = format!(
            "{head}\n257 0 0 0 0\n258\n258\n257 10 2 0 0\n\
             259 2 1 0 0\n259 12 1 0 0{fill}\n259 16 0 0 0\n259 16 0 0 0\n258"
        );
        let expected = [0, 1, 18, 3, 11, 3, 11, 3, 11, 3, 11, 10, 12, 16, 18];
        assert_eq!(effects(&text), expected);
        let corners = answer(&parse(&text).unwrap()).corners;
        let count = |name: &str| corners.iter().filter(|corner| *corner == name).count();
        assert_eq!(count("emit_found_8_queued"), 1);
        assert_eq!(count("newest_put_out"), 1);
        assert_eq!(count("effect_failed_locks"), 1);
        assert_eq!(count("call_settled_7"), 1);
    }

    fn count(text: &str, name: &str) -> usize {
        let corners = answer(&parse(text).unwrap()).corners;
        corners.iter().filter(|corner| *corner == name).count()
    }

    /// In the place of EffectFailed the component passes. The failure of its
    /// release only ends the batch, and that of the next event is a first one.
    #[test]
    fn after_a_planted_failure_the_machine_need_not_lock() {
        let text = "256 2 1 7 0 0 0 256\n257 0 0 0 0\n262 1 1 7 0 0\n262 1 17 0 0 0\n\
                    257 5 0 0 0\n260\n258\n262 1 5 0 0 0";
        assert_eq!(effects(text), [0, 2, 18, 4, 16, 18, 18]);
        for name in [
            "set_up_planted",
            "set_up_planted_in_vain",
            "set_up_later_failure_not_locked",
            "set_up_first_failure_after_a_survived_one",
        ] {
            assert_eq!(count(text, name), 1, "{name}");
        }
    }

    const CASCADE_OF_5: &str =
        "256 2 6 1 0 0 0 256 2 0 2 0 256 3 0 0 0 2 4 0 0 0 2 5 0 0 0 2 6 0 0 0 2\n257 0 0 0 0";

    /// The cascade of 2 has ten effects. The event of the first reply fills the
    /// queue, that of the second is lost, and the others are handed out.
    #[test]
    fn an_event_that_is_lost_after_a_failure_does_not_end_the_batch() {
        let inapt = " 5 0 0 0".repeat(7);
        let done = "\n258".repeat(8);
        let text = format!("{CASCADE_OF_5}\n262 8 10 2 0 0{inapt}\n259 5 0 0 0\n259 5 0 0 0{done}");
        let expected = [0, 3, 11, 3, 11, 3, 11, 3, 11, 3, 11, 18];
        assert_eq!(effects(&text), expected);
        assert_eq!(count(&text, "set_up_reply_lost_after_a_failure"), 1);
        assert_eq!(count(&text, "set_up_handed_after_a_loss"), 8);
    }

    /// Eight events are queued at a failure. The verdict among them is settled
    /// where it is the oldest, and gives way where it is the newest.
    #[test]
    fn the_newest_of_8_gives_way_to_the_first_failure() {
        let (verdict, inapt) = ("\n259 1 1 0 0", "\n259 5 0 0 0".repeat(7));
        let begun = format!("{CASCADE_OF_5}\n258\n258\n257 10 2 0 0");
        let oldest = format!("{begun}{verdict}{inapt}\n262 1 5 0 0 0");
        let newest = format!("{begun}{inapt}{verdict}\n262 1 5 0 0 0");
        assert_eq!(effects(&oldest)[12..], [2]);
        assert_eq!(effects(&newest)[12..], [18]);
        assert_eq!(count(&oldest, "set_up_kept_beside_one_put_out"), 1);
        assert_eq!(count(&newest, "set_up_kept_beside_one_put_out"), 0);
    }

    #[test]
    fn a_machine_is_set_up_while_an_effect_waits() {
        let text = "256 2 1 7 0 0 0 256\n257 0 0 0 0\n261 2 7 1 0 0 0 1 1\n257 3 7 0 0";
        let expected = [
            "0 0 0",
            "0 0 7 0 0 1 256 0 0 0",
            "0 18 0 0 0 2 7 1 0 0 0 0 0 0 0 0 1 1",
            "0 18 0 0 0 3 256 1 0 0 0 0 0 0 0 0 0 1",
        ];
        assert_eq!(answers(text), expected);
        let corners = answer(&parse(text).unwrap()).corners;
        assert!(corners.contains(&"set_up_component_ready_gives_ready".to_string()));
        assert!(!corners.contains(&"component_ready_gives_ready".to_string()));
    }

    /// The machine while an effect waits, from `dispatch_with` itself: it is
    /// left from within the callback at the last of the replies.
    fn left_at(mut rust: Rust, event: Event, replies: &[&Call]) -> Machine {
        let mut rest = replies.iter();
        let left = catch_unwind(AssertUnwindSafe(|| {
            rust.dispatch_with(event, |_| match rest.next() {
                Some(Call::Reply(reply)) => reply.result(),
                Some(Call::Planted(events)) => plant_failure(events),
                Some(_) => unreachable!("a reply"),
                None => resume_unwind(Box::new(())),
            });
        }));
        heapless::plant::uproot();
        assert!(left.is_err(), "an effect waits");
        read(&rust)
    }

    /// The machines that the answers show while an effect waits are those that
    /// `dispatch_with` has at that effect.
    #[test]
    fn the_machine_while_an_effect_waits_is_that_of_the_rust() {
        let (mut compared, mut planted) = (0, 0);
        for history in histories(5).take(400) {
            let Some(Call::New { max_retry, list }) = history.calls.first() else {
                continue;
            };
            if list.entries.len() > 12 || verdict(list) != Verdict::ACCEPTED {
                continue;
            }
            let start = read(&Rust::new(chain(&list.entries).unwrap(), *max_retry));
            let (mut before, mut begun, mut replies) = (start, None, Vec::new());
            let answers = answer(&history).answers;
            for (call, answer) in history.calls.iter().zip(answers) {
                let Answer::Called(called) = answer else {
                    continue;
                };
                match call {
                    Call::Begin(event) if called.number == 0 => begun = Some(*event),
                    Call::Reply(_) if called.number == 0 => replies.push(call),
                    Call::Planted(_) if called.number == 0 => {
                        replies.push(call);
                        planted += 1;
                    }
                    _ => {}
                }
                if called.effect.is_some() {
                    let rust = set_up(&list.entries, *max_retry, &before);
                    let left = left_at(rust, begun.unwrap(), &replies);
                    assert_eq!(called.machine, left);
                    compared += 1;
                } else {
                    before = called.machine;
                    replies.clear();
                }
            }
        }
        assert!(compared > 2_000, "{compared}");
        assert!(planted > 20, "{planted}");
    }
}
