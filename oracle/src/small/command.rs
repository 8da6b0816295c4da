//! The commands of the program `small`; see oracle/README.md.

use std::ffi::OsStr;
use std::io::{self, Write};
use std::process::ExitCode;

use super::chains::MOST;
use super::counts::Counts;
use super::{Choice, Small, visits};
use crate::command::{number, print_outcome, with_arguments};
use crate::compare::compare_cases;

const USAGE: &str = "usage: small walk COMPONENTS [PART PARTS]
       small compare PORT COMPONENTS [PART PARTS]";

/// Runs the command that the arguments name.
pub fn main() -> ExitCode {
    with_arguments("small", run)
}

fn run(arguments: &[&OsStr]) -> Result<ExitCode, String> {
    let (command, rest) = arguments.split_first().ok_or(USAGE)?;
    match (command.to_str(), rest) {
        (Some("walk"), chains) => {
            let counts = walk(choice(chains)?);
            write!(io::stdout(), "{counts}").map_err(|error| error.to_string())?;
            Ok(ExitCode::SUCCESS)
        }
        (Some("compare"), [port, chains @ ..]) => {
            let choice = choice(chains)?;
            compare_cases::<Small, _>(move || visits(choice), port)
                .and_then(|outcome| print_outcome(&outcome))
                .map_err(|error| error.to_string())
        }
        _ => Err(USAGE.into()),
    }
}

/// Which chains the arguments name.
fn choice(arguments: &[&OsStr]) -> Result<Choice, String> {
    let (components, part, parts) = match arguments {
        [components] => (number(components)?, 0, 1),
        [components, part, parts] => (number(components)?, number(part)?, number(parts)?),
        _ => return Err(USAGE.into()),
    };
    if !(1..=MOST).contains(&components) {
        return Err(format!("{components} components: 1 to {MOST} are possible"));
    }
    if part >= parts {
        return Err(format!("part {part} of {parts}: the first part is 0"));
    }
    Ok(Choice {
        components,
        part,
        parts,
    })
}

/// What the Rust alone reaches.
fn walk(choice: Choice) -> Counts {
    let mut counts = Counts::default();
    for visit in visits(choice) {
        counts.add(&visit);
    }
    counts
}
