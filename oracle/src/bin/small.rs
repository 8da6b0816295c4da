//! Compares small chains, machine by machine; see oracle/README.md.

use std::process::ExitCode;

fn main() -> ExitCode {
    oracle::small::command::main()
}
