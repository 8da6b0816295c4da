//! The commands of a subject's program; see oracle/README.md.

use std::env;
use std::ffi::{OsStr, OsString};
use std::fmt::Display;
use std::fs;
use std::io::{self, BufRead, BufWriter, Write};
use std::path::Path;
use std::process::ExitCode;

use crate::compare::{Outcome, compare, cover, write_cases};
use crate::subject::Subject;

/// Runs the command that the arguments name.
pub fn main<S: Subject>() -> ExitCode {
    with_arguments(S::NAME, run::<S>)
}

/// Gives the program's arguments to `run` and prints its error, if there is one.
pub fn with_arguments(
    name: &str,
    run: impl FnOnce(&[&OsStr]) -> Result<ExitCode, String>,
) -> ExitCode {
    let arguments: Vec<OsString> = env::args_os().skip(1).collect();
    let arguments: Vec<&OsStr> = arguments.iter().map(OsString::as_os_str).collect();
    match run(&arguments) {
        Ok(code) => code,
        Err(message) => {
            eprintln!("{name}: {message}");
            ExitCode::from(2)
        }
    }
}

fn usage<S: Subject>() -> String {
    let name = S::NAME;
    format!(
        "usage: {name} answer
       {name} generate SEED COUNT
       {name} cover SEED COUNT
       {name} compare SEED COUNT PORT
       {name} sample SEED FOLDER"
    )
}

fn run<S: Subject>(arguments: &[&OsStr]) -> Result<ExitCode, String> {
    let (command, rest) = arguments.split_first().ok_or_else(usage::<S>)?;
    let done = |result: io::Result<()>| match result {
        Ok(()) => Ok(ExitCode::SUCCESS),
        Err(error) => Err(error.to_string()),
    };
    match (command.to_str(), rest) {
        (Some("answer"), []) => done(print_answers::<S>()),
        (Some("generate"), [seed, count]) => {
            let output = BufWriter::new(io::stdout().lock());
            done(write_cases(
                output,
                S::cases(number(seed)?).take(number(count)?),
            ))
        }
        (Some("cover"), [seed, count]) => {
            let outcome = cover::<S>(number(seed)?, number(count)?);
            print_outcome(&outcome).map_err(|error| error.to_string())
        }
        (Some("compare"), [seed, count, port]) => {
            let outcome = compare::<S>(number(seed)?, number(count)?, port);
            outcome
                .and_then(|outcome| print_outcome(&outcome))
                .map_err(|error| error.to_string())
        }
        (Some("sample"), [seed, folder]) => {
            done(write_sample::<S>(number(seed)?, Path::new(folder)))
        }
        _ => Err(usage::<S>()),
    }
}

pub fn number<T: std::str::FromStr>(argument: &OsStr) -> Result<T, String> {
    argument
        .to_str()
        .and_then(|text| text.parse().ok())
        .ok_or_else(|| format!("not a number: {argument:?}"))
}

/// Prints the answer to each case on standard input.
fn print_answers<S: Subject>() -> io::Result<()> {
    let mut output = BufWriter::new(io::stdout().lock());
    // The lines of the case so far, and the number of its first one.
    let mut case: Vec<String> = Vec::new();
    let mut first = 1;
    for line in io::stdin().lock().lines() {
        let line = line?;
        if S::begins(&line) && !case.is_empty() {
            print_answer::<S>(&mut output, &case, first)?;
            first += case.len();
            case.clear();
        }
        case.push(line);
    }
    if !case.is_empty() {
        print_answer::<S>(&mut output, &case, first)?;
    }
    output.flush()
}

fn print_answer<S: Subject>(
    output: &mut impl Write,
    lines: &[String],
    first: usize,
) -> io::Result<()> {
    let case = S::parse(&lines.join("\n"))
        .map_err(|message| io::Error::other(format!("case at line {first}: {message}")))?;
    writeln!(output, "{}", S::answer(&case))
}

/// Prints the failures and the counts; success only if nothing failed.
pub fn print_outcome<C: Display>(outcome: &Outcome<C>) -> io::Result<ExitCode> {
    let mut output = io::stdout().lock();
    for failure in &outcome.failures {
        writeln!(output, "{failure}")?;
    }
    write!(output, "{}", outcome.counts)?;
    writeln!(output, "differences {}", outcome.differences)?;
    Ok(if outcome.failures.is_empty() {
        ExitCode::SUCCESS
    } else {
        ExitCode::FAILURE
    })
}

/// Writes `folder/stdin` with the sample's cases and `folder/stdout` with the
/// oracle's answers.
fn write_sample<S: Subject>(seed: u64, folder: &Path) -> io::Result<()> {
    let sample = S::sample(seed);
    let input: String = sample.iter().map(|case| format!("{case}\n")).collect();
    let output: String = sample
        .iter()
        .map(|case| format!("{}\n", S::answer(case)))
        .collect();
    fs::create_dir_all(folder)?;
    fs::write(folder.join("stdin"), input)?;
    fs::write(folder.join("stdout"), output)
}
