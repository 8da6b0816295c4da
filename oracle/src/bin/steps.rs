//! Asks the oracle about single steps of the state machine; see
//! oracle/README.md.

use std::process::ExitCode;

use oracle::{command, steps::Steps};

fn main() -> ExitCode {
    command::main::<Steps>()
}
