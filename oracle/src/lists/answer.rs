//! The oracle's answer to a list: document 01's number and two places.

use std::fmt;

use openprot_orchestrator_sm::{Chain, ChainError, ComponentId};

use super::{CAPACITY, Entry, List};

#[derive(Clone, Copy, PartialEq, Eq, Debug)]
pub struct Answer {
    pub number: u8,
    pub place: u8,
    pub other: u8,
}

/// Where an answer comes from.
#[derive(Clone, Copy, PartialEq, Eq, Debug)]
pub enum Source {
    /// `Chain::<256>::try_from` was run.
    Rust,
    /// The Rust cannot hold the list; document 01's question 3 decides.
    Document01,
}

impl Answer {
    pub const ACCEPTED: Answer = Answer::new(0, 0, 0);
    pub const EMPTY: Answer = Answer::new(2, 0, 0);
    pub const TOO_LONG: Answer = Answer::new(3, 0, 0);

    pub const fn new(number: u8, place: u8, other: u8) -> Self {
        Self {
            number,
            place,
            other,
        }
    }
}

impl fmt::Display for Answer {
    fn fmt(&self, f: &mut fmt::Formatter<'_>) -> fmt::Result {
        write!(f, "{} {} {}", self.number, self.place, self.other)
    }
}

impl From<ChainError> for Answer {
    fn from(error: ChainError) -> Self {
        let pair = |number, component: ComponentId, depends_on: ComponentId| {
            Answer::new(number, component.get(), depends_on.get())
        };
        match error {
            ChainError::Empty => Answer::EMPTY,
            ChainError::TooLong => Answer::TOO_LONG,
            ChainError::DuplicateId(id) => Answer::new(4, id.get(), 0),
            ChainError::UnknownDependency {
                component,
                depends_on,
            } => pair(5, component, depends_on),
            ChainError::ForwardDependency {
                component,
                depends_on,
            } => pair(6, component, depends_on),
        }
    }
}

/// The answer to a list.
pub fn answer(list: &List) -> Answer {
    match source(list) {
        Source::Rust => match chain(&list.entries) {
            Ok(_) => Answer::ACCEPTED,
            Err(error) => error.into(),
        },
        Source::Document01 => answer_by_document_01(list.length),
    }
}

/// Where the answer to a list comes from.
pub fn source(list: &List) -> Source {
    if list.length > CAPACITY as u64 {
        Source::Document01
    } else {
        Source::Rust
    }
}

/// The Rust's verdict. The entries are at most 256.
pub fn chain(entries: &[Entry]) -> Result<Chain<CAPACITY>, ChainError> {
    let mut list = heapless::Vec::<Entry, CAPACITY>::new();
    for entry in entries {
        list.push(*entry).expect("a list of at most 256 entries");
    }
    Chain::try_from(list)
}

/// Question 3 of document 01, for a length that the Rust cannot hold.
fn answer_by_document_01(length: u64) -> Answer {
    assert!(length > CAPACITY as u64);
    Answer::TOO_LONG
}

#[cfg(test)]
mod tests {
    use super::super::line::parse;
    use super::*;

    fn answered(line: &str) -> (String, Source) {
        let list = parse(line).unwrap();
        (answer(&list).to_string(), source(&list))
    }

    #[test]
    fn the_chain_rows_of_document_01() {
        for (line, expected) in [
            ("0", "2 0 0"),
            ("2 4 0 0 0 256 4 0 0 0 256", "4 4 0"),
            ("1 5 0 0 0 5", "6 5 5"),
            ("1 5 0 0 0 9", "5 5 9"),
        ] {
            assert_eq!(answered(line), (expected.into(), Source::Rust), "{line}");
        }
    }

    #[test]
    fn a_repeated_id_comes_before_an_earlier_dependency() {
        let line = "3 1 0 0 0 9 2 0 0 0 256 2 0 0 0 256";
        assert_eq!(answered(line).0, "4 2 0");
    }

    #[test]
    fn dependencies_are_taken_entry_by_entry() {
        assert_eq!(answered("2 1 0 0 0 2 2 0 0 0 9").0, "6 1 2");
        assert_eq!(answered("2 1 0 0 0 9 2 0 0 0 2").0, "5 1 9");
    }

    #[test]
    fn an_earlier_dependency_is_accepted() {
        assert_eq!(answered("2 1 0 0 0 256 2 1 2 7 1").0, "0 0 0");
    }

    #[test]
    fn lengths_at_the_limit() {
        let ids: Vec<String> = (0..256).map(|id| format!(" {id} 0 0 0 256")).collect();
        let line = |length: usize| format!("{length}{}", ids[..length].concat());
        assert_eq!(answered(&line(255)), ("0 0 0".into(), Source::Rust));
        assert_eq!(answered(&line(256)), ("3 0 0".into(), Source::Rust));
        let longer = format!("257{}", ids[..255].concat());
        assert_eq!(answered(&longer), ("3 0 0".into(), Source::Document01));
    }
}
