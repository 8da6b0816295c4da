//! What the oracle is asked about. The commands and the comparison are the same
//! for every subject.

use std::fmt::Display;

/// From this many cases on, a comparison must reach the minimums.
pub const MINIMUMS_FROM: u64 = 100_000;

/// What a comparison needs to know.
pub trait Compared {
    /// One or more lines of input, with no byte 10 after the last.
    type Case: Display + Send + 'static;
    /// One line of output for each line of the case.
    type Answer: Display;
    type Counts: Counts<Self::Case, Self::Answer>;

    /// The oracle's answer.
    fn answer(case: &Self::Case) -> Self::Answer;

    /// The lines of the case that lead to its line `index`, with that line.
    fn lines_up_to(case: &Self::Case, index: usize) -> String {
        let case = case.to_string();
        let lines: Vec<&str> = case.split('\n').take(index + 1).collect();
        lines.join("\n")
    }
}

/// A subject whose cases are generated from a seed.
pub trait Subject: Compared + 'static {
    /// The name of its program.
    const NAME: &'static str;

    /// Whether the line begins a case, where lines came before it.
    fn begins(_line: &str) -> bool {
        true
    }

    /// Reads a case from its lines, with no byte 10 after the last.
    fn parse(text: &str) -> Result<Self::Case, String>;

    /// Endless cases for a seed. The same seed gives the same cases.
    fn cases(seed: u64) -> impl Iterator<Item = Self::Case>;

    /// A small set of cases, to be kept as a test of the port.
    fn sample(seed: u64) -> Vec<Self::Case>;
}

/// What a comparison has reached.
pub trait Counts<Case, Answer>: Default + Display {
    /// Counts one case with the oracle's answer.
    fn record(&mut self, case: &Case, answer: &Answer);

    /// One message for each minimum that is missed, if there were enough cases
    /// to ask for them.
    fn missed_minimums(&self) -> Vec<String>;
}
