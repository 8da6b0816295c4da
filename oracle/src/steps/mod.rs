//! One step of the state machine, from a machine that is set up in any
//! situation.

pub mod answer;
pub mod counts;
pub mod generate;
pub mod line;
pub mod numbers;
pub mod rows;
pub mod rules;
pub mod sample;

use openprot_orchestrator_sm::{ComponentId, Effect, Event, State, Status};

use crate::lists::Entry;
use crate::subject::{Compared, Subject};

/// What a step may change, apart from the effects.
#[derive(Clone, PartialEq, Eq, Debug)]
pub struct Machine {
    pub state: State,
    pub cursor: u8,
    /// Whether the commit window is open.
    pub window: bool,
    /// One for each component, in chain order.
    pub statuses: Vec<Status>,
}

/// A machine and the event that it gets. The entries are an accepted chain, the
/// state names none but their ids and the cursor is at most their number.
#[derive(Clone, PartialEq, Eq, Debug)]
pub struct Case {
    pub max_retry: u8,
    pub entries: Vec<Entry>,
    pub machine: Machine,
    pub event: Event,
}

/// The machine after the step, and the effects in order.
#[derive(Clone, PartialEq, Eq, Debug)]
pub struct Answer {
    pub machine: Machine,
    pub effects: Vec<Effect>,
}

/// The position of the component `id`.
pub fn position_of(entries: &[Entry], id: ComponentId) -> Option<usize> {
    entries.iter().position(|(present, _)| *present == id)
}

/// Single steps, as a subject of comparison.
pub struct Steps;

impl Compared for Steps {
    type Case = Case;
    type Answer = Answer;
    type Counts = counts::Counts;

    fn answer(case: &Case) -> Answer {
        answer::answer(case)
    }
}

impl Subject for Steps {
    const NAME: &'static str = "steps";

    fn parse(line: &str) -> Result<Case, String> {
        line::parse(line)
    }

    fn cases(seed: u64) -> impl Iterator<Item = Case> {
        generate::cases(seed)
    }

    fn sample(seed: u64) -> Vec<Case> {
        sample::sample(seed)
    }
}
