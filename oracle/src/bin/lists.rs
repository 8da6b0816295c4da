//! Asks the oracle about lists of components; see oracle/README.md.

use std::process::ExitCode;

use oracle::{command, lists::Lists};

fn main() -> ExitCode {
    command::main::<Lists>()
}
