//! Both sides on the same sheet: a benchmark of different work would say nothing.

use mallardtray::Answer;

use crate::sides::{Side, buffer};

/// What both sides give for a sheet. All five numbers and every byte of the
/// buffer are compared, and the sheet has to be run to its end.
pub fn both(sheet: &[u8]) -> Result<Answer, String> {
    let (mut port_out, mut rust_out) = (buffer(), buffer());
    let port = Side::Port.run(sheet, &mut port_out);
    let rust = Side::Rust.run(sheet, &mut rust_out);
    if port != rust {
        return Err(format!("the port gives {port:?}, the Rust {rust:?}"));
    }
    if port_out != rust_out {
        return Err("the transcripts differ".into());
    }
    if port.number != 0 {
        return Err(format!("refused: {port:?}"));
    }
    Ok(port)
}

#[cfg(test)]
mod tests {
    use super::*;

    #[test]
    fn a_sheet_that_is_refused_is_no_workload() {
        assert!(both(b"").is_err());
    }
}
