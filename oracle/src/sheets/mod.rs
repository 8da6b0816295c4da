//! Sheets and transcripts, by section 5 of document 01. A sheet is run on the
//! Rust's `dispatch_with`; oracle/README.md says where each part of an answer
//! comes from.

pub mod command;
pub mod compare;
pub mod counts;
pub mod damage;
pub mod extremes;
pub mod generate;
pub mod library;
pub mod programs;
pub mod read;
pub mod record;
pub mod sample;
pub mod text;

use openprot_orchestrator_sm::Event;

use crate::histories::Reply;
use crate::lists::Entry;

/// The longest sheet that the programs take, the length of their transcript
/// buffer, and their limit of events.
pub const PROGRAM_BYTES: usize = 65_536;
pub const PROGRAM_LIMIT: u64 = 65_536;

/// A line after the components.
#[derive(Clone, Copy, PartialEq, Eq, Debug)]
pub enum Line {
    Event(Event),
    Reply(Reply),
}

/// A well-formed sheet. Its chain may be refused.
#[derive(Clone, PartialEq, Eq, Debug)]
pub struct Sheet {
    pub max_retry: u8,
    pub entries: Vec<Entry>,
    pub lines: Vec<Line>,
}

impl Sheet {
    /// Where `lines[index]` stands in the sheet, from 1.
    pub fn line_number(&self, index: usize) -> usize {
        1 + self.entries.len() + index + 1
    }
}

/// The number of the first question that refuses, and its two places.
#[derive(Clone, Copy, PartialEq, Eq, Debug, Default)]
pub struct Refusal {
    pub number: u64,
    pub place: u64,
    pub other: u64,
}

impl Refusal {
    pub const NONE: Refusal = Refusal::new(0, 0, 0);
    /// A sheet that is too long for the programs.
    pub const TOO_LONG: Refusal = Refusal::new(1, 0, 0);

    pub const fn new(number: u64, place: u64, other: u64) -> Self {
        Self {
            number,
            place,
            other,
        }
    }
}

/// What check and run give.
#[derive(Clone, Copy, PartialEq, Eq, Debug)]
pub struct Answer {
    pub refusal: Refusal,
    /// Bytes of whole transcript lines.
    pub written: u64,
    /// Events settled.
    pub settled: u64,
}
