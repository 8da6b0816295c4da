//! What a comparison has reached, and the least that it has to reach.

use std::fmt;

use super::answer::{Answer, Source, source};
use super::faults::{faults, has_self_dependency, numbers_differ};
use super::{LONGEST, List};
use crate::subject::{self, MINIMUMS_FROM};

const LEAST_OF_EACH_ANSWER: u64 = 5_000;
const LEAST_ACCEPTED_AT_A_LENGTH: u64 = 500;
const LEAST_WITH_TWO_FAULT_NUMBERS: u64 = 5_000;

/// The lengths at which accepted lists are counted.
const LENGTHS: [u64; 4] = [1, 2, 254, 255];

#[derive(Default)]
pub struct Counts {
    lists: u64,
    /// By answer number; 1 stays 0.
    answers: [u64; 7],
    too_long_from_rust: u64,
    too_long_from_document_01: u64,
    /// By place in `LENGTHS`.
    accepted: [u64; LENGTHS.len()],
    two_fault_numbers: u64,
    self_dependency: u64,
}

impl subject::Counts<List, Answer> for Counts {
    fn record(&mut self, list: &List, answer: &Answer) {
        self.lists += 1;
        self.answers[usize::from(answer.number)] += 1;
        if *answer == Answer::TOO_LONG {
            match source(list) {
                Source::Rust => self.too_long_from_rust += 1,
                Source::Document01 => self.too_long_from_document_01 += 1,
            }
        }
        if *answer == Answer::ACCEPTED {
            for (count, length) in self.accepted.iter_mut().zip(LENGTHS) {
                *count += u64::from(list.length == length);
            }
        }
        // Longer lists are refused before their entries are looked at.
        if list.length <= LONGEST as u64 {
            self.two_fault_numbers += u64::from(numbers_differ(&faults(&list.entries)));
            self.self_dependency += u64::from(has_self_dependency(&list.entries));
        }
    }

    fn missed_minimums(&self) -> Vec<String> {
        if self.lists < MINIMUMS_FROM {
            return Vec::new();
        }
        self.minimums()
            .into_iter()
            .filter(|(_, count, least)| count < least)
            .map(|(name, count, least)| format!("{name} is {count}, at least {least} are needed"))
            .collect()
    }
}

impl Counts {
    /// The rows that have a minimum, with it.
    fn minimums(&self) -> Vec<(String, u64, u64)> {
        let mut rows = Vec::new();
        for number in [0, 3, 4, 5, 6] {
            let name = format!("answer_{number}");
            rows.push((name, self.answers[number], LEAST_OF_EACH_ANSWER));
        }
        for (count, length) in self.accepted.iter().zip(LENGTHS) {
            let name = format!("accepted_at_length_{length}");
            rows.push((name, *count, LEAST_ACCEPTED_AT_A_LENGTH));
        }
        rows.push((
            "with_two_fault_numbers".into(),
            self.two_fault_numbers,
            LEAST_WITH_TWO_FAULT_NUMBERS,
        ));
        rows
    }
}

impl fmt::Display for Counts {
    fn fmt(&self, f: &mut fmt::Formatter<'_>) -> fmt::Result {
        writeln!(f, "lists {}", self.lists)?;
        for number in [0, 2, 3, 4, 5, 6] {
            writeln!(f, "answer_{number} {}", self.answers[number])?;
        }
        writeln!(f, "answer_3_from_rust {}", self.too_long_from_rust)?;
        let by_document = self.too_long_from_document_01;
        writeln!(f, "answer_3_from_document_01 {by_document}")?;
        for (count, length) in self.accepted.iter().zip(LENGTHS) {
            writeln!(f, "accepted_at_length_{length} {count}")?;
        }
        writeln!(f, "with_two_fault_numbers {}", self.two_fault_numbers)?;
        writeln!(f, "with_self_dependency {}", self.self_dependency)
    }
}

#[cfg(test)]
mod tests {
    use super::super::answer::answer;
    use super::super::line::parse;
    use super::*;
    use crate::subject::Counts as _;

    fn counts_of(lines: &[&str]) -> Counts {
        let mut counts = Counts::default();
        for line in lines {
            let list = parse(line).unwrap();
            counts.record(&list, &answer(&list));
        }
        counts
    }

    #[test]
    fn each_row_counts_its_lists() {
        let counts = counts_of(&[
            "0",
            "1 7 0 0 0 256",
            "2 7 0 0 0 256 8 0 0 0 7",
            "1 5 0 0 0 5",
            "2 1 0 0 0 9 1 0 0 0 256",
            "300 5 0 0 0 5",
        ]);
        let table = counts.to_string();
        let expected = "lists 6\n\
            answer_0 2\nanswer_2 1\nanswer_3 1\nanswer_4 1\nanswer_5 0\nanswer_6 1\n\
            answer_3_from_rust 0\nanswer_3_from_document_01 1\n\
            accepted_at_length_1 1\naccepted_at_length_2 1\n\
            accepted_at_length_254 0\naccepted_at_length_255 0\n\
            with_two_fault_numbers 1\nwith_self_dependency 1\n";
        assert_eq!(table, expected);
    }

    #[test]
    fn few_lists_need_no_minimum() {
        assert!(counts_of(&["0"]).missed_minimums().is_empty());
    }

    #[test]
    fn many_lists_of_one_kind_miss_the_minimums() {
        let counts = Counts {
            lists: MINIMUMS_FROM,
            answers: [MINIMUMS_FROM, 0, 0, 0, 0, 0, 0],
            accepted: [500, 499, 500, 500],
            ..Counts::default()
        };
        let missed = counts.missed_minimums();
        assert_eq!(missed.len(), 6);
        assert!(missed[4].starts_with("accepted_at_length_2 is 499"));
    }
}
