//! Histories: step calls on one machine, one after the other. The answers come
//! from the Rust's `dispatch_with`.

pub mod answer;
pub mod corners;
pub mod counts;
pub mod events;
pub mod generate;
pub mod line;
pub mod planted;
pub mod sample;
pub mod scenes;
pub mod stepwise;
pub mod storms;
pub mod unreached;
pub mod writer;

use openprot_orchestrator_sm::{Effect, EffectError, Event};

use crate::lists::{self, List};
use crate::steps::{self, Case, Machine};
use crate::subject::{Compared, Subject};

/// The answer to an effect.
#[derive(Clone, Copy, PartialEq, Eq, Debug)]
pub enum Reply {
    Done,
    Then(Event),
    Failed,
}

impl Reply {
    /// The reply as the Rust's callback gives it.
    pub fn result(self) -> Result<Option<Event>, EffectError> {
        match self {
            Reply::Done => Ok(None),
            Reply::Then(event) => Ok(Some(event)),
            Reply::Failed => Err(EffectError),
        }
    }
}

/// One line of a history.
#[derive(Clone, PartialEq, Eq, Debug)]
pub enum Call {
    /// A case of `steps`. The machine at hand has no part in it.
    Step(Case),
    New {
        max_retry: u8,
        list: List,
    },
    Begin(Event),
    Reply(Reply),
    /// The machine at hand gets another situation, with nothing waiting.
    SetUp(Machine),
    /// A reply that the effect failed. Where that is the first failure of its
    /// dispatch, these events, at most 8, stand in the queue in the place of
    /// EffectFailed; of those queued behind it as many stay as there is room for.
    Planted(Vec<Event>),
}

/// Calls on one machine. None but the first is `New`.
#[derive(Clone, PartialEq, Eq, Debug)]
pub struct History {
    pub calls: Vec<Call>,
    /// The profile that it was drawn for, or `NO_PROFILE`.
    pub profile: &'static str,
}

/// Of a history that was written by hand or read from lines.
pub const NO_PROFILE: &str = "none";

impl History {
    pub fn new(calls: Vec<Call>) -> Self {
        Self {
            calls,
            profile: NO_PROFILE,
        }
    }
}

/// What `begin` and `reply` give, and the machine that they leave.
#[derive(Clone, PartialEq, Eq, Debug)]
pub struct Called {
    pub number: u8,
    pub effect: Option<Effect>,
    pub machine: Machine,
}

/// The answer to one call.
#[derive(Clone, PartialEq, Eq, Debug)]
pub enum Answer {
    Step(steps::Answer),
    New(lists::answer::Answer),
    /// There is no machine to call.
    NoMachine,
    Called(Called),
}

/// The answers to a history, one for each call, and the corners that it
/// reached, one entry for each time.
#[derive(Clone, PartialEq, Eq, Debug)]
pub struct Answers {
    pub answers: Vec<Answer>,
    pub corners: Vec<String>,
    /// The events that were settled.
    pub events: u64,
}

/// Histories, as a subject of comparison.
pub struct Histories;

impl Compared for Histories {
    type Case = History;
    type Answer = Answers;
    type Counts = counts::Counts;

    fn answer(history: &History) -> Answers {
        answer::answer(history)
    }
}

impl Subject for Histories {
    const NAME: &'static str = "histories";

    fn begins(line: &str) -> bool {
        line::is_new(line)
    }

    fn parse(text: &str) -> Result<History, String> {
        line::parse(text)
    }

    fn cases(seed: u64) -> impl Iterator<Item = History> {
        generate::histories(seed)
    }

    fn sample(seed: u64) -> Vec<History> {
        sample::sample(seed)
    }
}
