//! Lists of components and the verdict of `Chain::<256>::try_from` on them.

pub mod answer;
pub mod counts;
pub mod faults;
pub mod generate;
pub mod line;
pub mod mutate;
pub mod sample;

use openprot_orchestrator_sm::{ComponentAttrs, ComponentId};

use crate::subject::{Compared, Subject};

/// The capacity of the chains that the Rust is asked about.
pub const CAPACITY: usize = 256;

/// The most entries that a chain may have, and that the port keeps of a list.
pub const LONGEST: usize = 255;

/// One component of a list, as the Rust takes it.
pub type Entry = (ComponentId, ComponentAttrs);

/// A list as it stands on one line. `length` may exceed the entries written,
/// since no line can carry the longest lists.
#[derive(Clone, PartialEq, Eq, Debug)]
pub struct List {
    pub length: u64,
    pub entries: Vec<Entry>,
}

impl List {
    /// A list that is as long as its entries.
    pub fn whole(entries: Vec<Entry>) -> Self {
        Self {
            length: entries.len() as u64,
            entries,
        }
    }
}

/// The verdict on a list, as a subject of comparison.
pub struct Lists;

impl Compared for Lists {
    type Case = List;
    type Answer = answer::Answer;
    type Counts = counts::Counts;

    fn answer(list: &List) -> answer::Answer {
        answer::answer(list)
    }
}

impl Subject for Lists {
    const NAME: &'static str = "lists";

    fn parse(line: &str) -> Result<List, String> {
        line::parse(line)
    }

    fn cases(seed: u64) -> impl Iterator<Item = List> {
        generate::lists(seed)
    }

    fn sample(seed: u64) -> Vec<List> {
        sample::sample(seed)
    }
}
