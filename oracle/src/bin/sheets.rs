//! Runs sheets on the Rust and compares programs with it; see oracle/README.md.

use std::process::ExitCode;

fn main() -> ExitCode {
    oracle::sheets::command::main()
}
