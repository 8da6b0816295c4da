//! Runs the port on generated cases and compares its answers with the oracle's.

use std::ffi::OsStr;
use std::fmt::Display;
use std::io::{self, BufRead, BufReader, BufWriter, Write};
use std::process::{Child, Command, Stdio};
use std::sync::mpsc::{Sender, channel};
use std::thread;

use crate::subject::{Compared, Counts, Subject};

/// A comparison ends after this many differences.
pub const MOST_DIFFERENCES: u64 = 10;

/// What a comparison found.
#[derive(Default)]
pub struct Outcome<C> {
    pub counts: C,
    pub differences: u64,
    /// Why the comparison failed; empty if the port agrees everywhere.
    pub failures: Vec<String>,
}

/// Compares `count` cases.
pub fn compare<S: Subject>(
    seed: u64,
    count: usize,
    port: &OsStr,
) -> io::Result<Outcome<S::Counts>> {
    compare_cases::<S, _>(move || S::cases(seed).take(count), port)
}

/// Compares the cases that `make` gives. The port gets them on its standard
/// input while its answers are read, so neither side waits for the other for
/// ever. A case is kept until its answer is read: few are, since a pipe holds
/// little.
pub fn compare_cases<S: Compared, I: Iterator<Item = S::Case>>(
    make: impl FnOnce() -> I + Send + 'static,
    port: &OsStr,
) -> io::Result<Outcome<S::Counts>> {
    let mut child = Command::new(port)
        .stdin(Stdio::piped())
        .stdout(Stdio::piped())
        .spawn()?;
    let input = child.stdin.take().expect("a piped standard input");
    let output = child.stdout.take().expect("a piped standard output");
    let (sender, written) = channel();
    let writer = thread::spawn(move || write_and_send(BufWriter::new(input), make(), &sender));

    let outcome = compare_answers::<S>(BufReader::new(output), written);
    let ended = end(
        &mut child,
        outcome.as_ref().is_ok_and(|o| o.failures.is_empty()),
    )?;
    let written = writer.join().expect("the writer does not panic");

    let mut outcome = outcome?;
    outcome.failures.extend(ended);
    // After another failure the input was cut off on purpose.
    if let (Err(error), true) = (written, outcome.failures.is_empty()) {
        outcome.failures.push(format!("the port's input: {error}"));
    }
    outcome.failures.extend(outcome.counts.missed_minimums());
    Ok(outcome)
}

/// What `count` cases reach, with no port to compare.
pub fn cover<S: Subject>(seed: u64, count: usize) -> Outcome<S::Counts> {
    let mut outcome = Outcome::<S::Counts>::default();
    for case in S::cases(seed).take(count) {
        outcome.counts.record(&case, &S::answer(&case));
    }
    outcome.failures = outcome.counts.missed_minimums();
    outcome
}

/// Prints the cases, each on its lines.
pub fn write_cases(mut output: impl Write, cases: impl Iterator<Item: Display>) -> io::Result<()> {
    for case in cases {
        writeln!(output, "{case}")?;
    }
    output.flush()
}

/// Prints the cases and sends each on, up to the end or until nobody takes them.
fn write_and_send<C: Display>(
    mut output: impl Write,
    cases: impl Iterator<Item = C>,
    sender: &Sender<C>,
) -> io::Result<()> {
    for case in cases {
        writeln!(output, "{case}")?;
        if sender.send(case).is_err() {
            break;
        }
    }
    output.flush()
}

/// Waits for the port, or ends it after a failure, since it may wait for input
/// that does not come. Gives a message if the port itself reports a failure.
fn end(child: &mut Child, agreed: bool) -> io::Result<Option<String>> {
    if !agreed {
        // An error here means that the port has ended already.
        let _ = child.kill();
        child.wait()?;
        return Ok(None);
    }
    let status = child.wait()?;
    Ok((!status.success()).then(|| format!("the port ended with {status}")))
}

/// Reads the port's answers to the cases.
pub(crate) fn compare_answers<S: Compared>(
    mut port: impl BufRead,
    cases: impl IntoIterator<Item = S::Case>,
) -> io::Result<Outcome<S::Counts>> {
    let mut outcome = Outcome::<S::Counts>::default();
    let mut line = Vec::new();
    for case in cases {
        let answer = S::answer(&case);
        outcome.counts.record(&case, &answer);
        for (index, expected) in answer.to_string().split('\n').enumerate() {
            line.clear();
            if port.read_until(b'\n', &mut line)? == 0 {
                let message = "the port printed too few lines".to_string();
                outcome.failures.push(message);
                return Ok(outcome);
            }
            if line.strip_suffix(b"\n") != Some(expected.as_bytes()) {
                outcome.differences += 1;
                let message = difference(&S::lines_up_to(&case, index), expected, &line);
                outcome.failures.push(message);
                if outcome.differences == MOST_DIFFERENCES {
                    return Ok(outcome);
                }
            }
        }
    }
    if port.read(&mut [0])? != 0 {
        let message = "the port printed too many lines".to_string();
        outcome.failures.push(message);
    }
    Ok(outcome)
}

/// The lines of a case up to one of them, and the two answers to that one.
fn difference(asked: &str, expected: &str, line: &[u8]) -> String {
    let port = String::from_utf8_lossy(line);
    format!("case {asked}\noracle {expected}\nport {port:?}")
}

#[cfg(test)]
mod tests {
    use super::*;
    use crate::histories::Histories;
    use crate::lists::Lists;
    use crate::steps::Steps;

    const SEED: u64 = 11;
    const COUNT: usize = 200;

    fn right_answers<S: Subject>() -> Vec<u8> {
        S::cases(SEED)
            .take(COUNT)
            .flat_map(|case| format!("{}\n", S::answer(&case)).into_bytes())
            .collect()
    }

    fn failures<S: Subject>(port: &[u8]) -> Vec<String> {
        compare_answers::<S>(port, S::cases(SEED).take(COUNT))
            .unwrap()
            .failures
    }

    #[test]
    fn right_answers_agree() {
        assert!(failures::<Lists>(&right_answers::<Lists>()).is_empty());
        assert!(failures::<Steps>(&right_answers::<Steps>()).is_empty());
        assert!(failures::<Histories>(&right_answers::<Histories>()).is_empty());
    }

    #[test]
    fn a_difference_names_the_calls_up_to_it() {
        let mut port = right_answers::<Histories>();
        let history = Histories::cases(SEED).nth(1).unwrap();
        let before = Histories::cases(SEED).next().unwrap().to_string();
        let line = before.split('\n').count() + 1;
        let starts = port.iter().enumerate().filter(|(_, byte)| **byte == b'\n');
        let (place, _) = starts
            .map(|(place, _)| (place + 1, ()))
            .nth(line - 1)
            .unwrap();
        port[place] = b'8';
        let asked: Vec<String> = history.to_string().split('\n').map(String::from).collect();
        let failures = failures::<Histories>(&port);
        assert_eq!(failures.len(), 1);
        assert!(failures[0].starts_with(&format!("case {}\n{}\noracle ", asked[0], asked[1])));
    }

    #[test]
    fn a_missing_line_is_found() {
        let mut port = right_answers::<Lists>();
        port.pop();
        let end = port.iter().rposition(|byte| *byte == b'\n').unwrap();
        port.truncate(end + 1);
        assert_eq!(failures::<Lists>(&port), ["the port printed too few lines"]);
    }

    #[test]
    fn a_line_too_many_is_found() {
        let mut port = right_answers::<Lists>();
        port.extend(b"0 0 0\n");
        assert_eq!(
            failures::<Lists>(&port),
            ["the port printed too many lines"]
        );
    }

    #[test]
    fn a_last_line_without_its_end_is_a_difference() {
        let mut port = right_answers::<Lists>();
        port.pop();
        assert_eq!(failures::<Lists>(&port).len(), 1);
    }

    #[test]
    fn one_wrong_number_is_a_difference() {
        let mut port = right_answers::<Steps>();
        let last = port.len() - 2;
        port[last] = if port[last] == b'9' { b'8' } else { b'9' };
        assert_eq!(failures::<Steps>(&port).len(), 1);
    }

    #[test]
    fn wrong_answers_end_the_comparison_after_ten() {
        let port = b"9 9 9\n".repeat(COUNT);
        let outcome =
            compare_answers::<Lists>(port.as_slice(), Lists::cases(SEED).take(COUNT)).unwrap();
        assert_eq!(outcome.differences, MOST_DIFFERENCES);
        assert_eq!(outcome.failures.len(), 10);
    }
}
