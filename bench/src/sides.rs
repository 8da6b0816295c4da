//! The two sides: the port and the Rust.

use mallardtray::Answer;

use crate::runner;

/// The bytes of the transcript buffer. The longest transcript of a workload is
/// some 97,000 bytes.
pub const BUFFER: usize = 262_144;

/// The limit of both sides. No workload meets it.
pub const LIMIT: u64 = 65_536;

#[derive(Clone, Copy, PartialEq, Eq, Debug)]
pub enum Side {
    Port,
    Rust,
}

pub const SIDES: [Side; 2] = [Side::Port, Side::Rust];

impl Side {
    pub fn name(self) -> &'static str {
        match self {
            Side::Port => "port",
            Side::Rust => "rust",
        }
    }

    pub fn named(name: &str) -> Option<Self> {
        SIDES.into_iter().find(|side| side.name() == name)
    }

    pub fn run(self, sheet: &[u8], out: &mut [u8]) -> Answer {
        match self {
            Side::Port => mallardtray::run(sheet, out, LIMIT),
            Side::Rust => runner::run(sheet, out, LIMIT),
        }
    }
}

/// A transcript buffer. It is made once and not cleared between runs.
pub fn buffer() -> Vec<u8> {
    vec![0; BUFFER]
}
