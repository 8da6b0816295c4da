//! The commands of the program `sheets`; see oracle/README.md.

use std::ffi::OsStr;
use std::io::{self, Read, Write};
use std::path::Path;
use std::process::ExitCode;

use super::compare::{compare, cover, write};
use super::generate::cases;
use super::programs::Programs;
use super::record::Recording;
use super::sample::sample;
use crate::command::{number, print_outcome, with_arguments};

const USAGE: &str = "usage: sheets run
       sheets generate SEED COUNT FOLDER
       sheets sample SEED FOLDER
       sheets cover SEED COUNT
       sheets compare SEED COUNT REPLAY LOADER";

/// Runs the command that the arguments name.
pub fn main() -> ExitCode {
    with_arguments("sheets", run)
}

fn run(arguments: &[&OsStr]) -> Result<ExitCode, String> {
    let (command, rest) = arguments.split_first().ok_or(USAGE)?;
    let result = match (command.to_str(), rest) {
        (Some("run"), []) => run_input().map(|()| ExitCode::SUCCESS),
        (Some("generate"), [seed, count, folder]) => {
            let sheets = cases(number(seed)?).take(number(count)?);
            write(sheets, Path::new(folder)).map(|()| ExitCode::SUCCESS)
        }
        (Some("sample"), [seed, folder]) => {
            write(sample(number(seed)?), Path::new(folder)).map(|()| ExitCode::SUCCESS)
        }
        (Some("cover"), [seed, count]) => print_outcome(&cover(number(seed)?, number(count)?)),
        (Some("compare"), [seed, count, replay, loader]) => {
            let programs = Programs::new(replay, loader);
            compare(number(seed)?, number(count)?, &programs)
                .and_then(|outcome| print_outcome(&outcome))
        }
        _ => return Err(USAGE.into()),
    };
    result.map_err(|error| error.to_string())
}

/// Prints what `replay` prints for the sheet on standard input.
fn run_input() -> io::Result<()> {
    let mut text = Vec::new();
    io::stdin().lock().read_to_end(&mut text)?;
    let printed = Recording::of_input(&text).printed();
    io::stdout().lock().write_all(&printed)
}
