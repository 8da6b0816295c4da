//! Asks the oracle about whole histories of step calls; see oracle/README.md.

use std::process::ExitCode;

use oracle::{command, histories::Histories};

fn main() -> ExitCode {
    command::main::<Histories>()
}
