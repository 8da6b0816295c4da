//! Sheets at the edges: the longest, the emptiest and the strangest. Each
//! stands with the refusal that document 01 gives it, written by hand.

use super::{PROGRAM_BYTES, Refusal};

pub struct Extreme {
    pub name: &'static str,
    pub text: Vec<u8>,
    /// What the programs say to it.
    pub refusal: Refusal,
}

/// The shortest C line but for its id.
fn component(id: usize) -> String {
    format!("C\t{id}\tActive\tRequired\t0\t-\n")
}

/// C lines with the ids from 0, from 256 on again from 0.
fn components(count: usize) -> String {
    (0..count).map(|id| component(id % 256)).collect()
}

/// The shortest E line, about an id that is not in the chain.
const BOOTED: &str = "E\tBooted\t1\n";

/// The sheet of document 01, 75 bytes: it ends in Ready.
fn ready() -> String {
    let lines = "E\tPowerGood\tProvisioned\nE\tVerificationPassed\t7\n";
    format!("B\t2\n{}{lines}", component(7))
}

/// Ends in AwaitingReady 7. The transcript so far has 124 bytes, and 18 bytes
/// for each component follow at the end.
fn awaiting(more: &str) -> String {
    let lines = "E\tPowerGood\tProvisioned\nE\tVerificationPassed\t7\n";
    format!("B\t2\n{}{}{more}{lines}", component(7), component(8))
}

/// Sheets that are not as in section 5.
fn bad_lines() -> Vec<(&'static str, Vec<u8>, u64)> {
    let every_byte: Vec<u8> = (0..=u8::MAX).collect();
    let endless = |head: &str, byte: u8| {
        let mut text = head.as_bytes().to_vec();
        text.resize(PROGRAM_BYTES, byte);
        text
    };
    let digits = |head: &str, digit: &str, tail: &str| {
        format!("B\t2\n{head}{}{tail}\n", digit.repeat(1_000)).into_bytes()
    };
    vec![
        ("empty", Vec::new(), 1),
        ("one_newline", b"\n".to_vec(), 1),
        ("tabs", endless("", b'\t'), 1),
        ("newlines", endless("", b'\n'), 1),
        ("endless_line", endless("", b'B'), 1),
        ("endless_second_line", endless("B\t2\n", b'C'), 2),
        ("tabs_after_a_line", endless("B\t2\n", b'\t'), 2),
        ("newlines_after_a_line", endless("B\t2\n", b'\n'), 2),
        ("every_byte", every_byte.clone(), 1),
        (
            "every_byte_after_a_line",
            [b"B\t2\n", every_byte.as_slice()].concat(),
            2,
        ),
        ("thousand_nines", digits("C\t", "9", "\tActive"), 2),
        (
            "thousand_zeros_as_an_id",
            digits("C\t", "0", "\tActive\tRequired\t0\t-"),
            2,
        ),
        (
            "thousand_ones_as_a_dependency",
            digits("C\t1\tActive\tRequired\t0\t", "1", ""),
            2,
        ),
        (
            "thousand_zeros_as_a_checkpoint",
            digits("E\tBootFailed\t7\t", "0", "\tTimedOut"),
            2,
        ),
        ("components_and_a_bad_line", crowded("C\n"), 2_732),
    ]
}

/// As many C lines as fit, of 24 bytes each, and a last line.
fn crowded(last: &str) -> Vec<u8> {
    format!("B\t2\n{}{last}", component(7).repeat(2_730)).into_bytes()
}

fn refused_chains() -> Vec<(&'static str, Vec<u8>, Refusal)> {
    let chain = |count| format!("B\t2\n{}", components(count)).into_bytes();
    let too_many = Refusal::new(3, 0, 0);
    vec![
        ("no_component", b"B\t2\n".to_vec(), Refusal::new(2, 0, 0)),
        (
            "no_component_and_a_reply",
            b"B\t2\nR\tok\n".to_vec(),
            Refusal::new(2, 0, 0),
        ),
        ("components_255", chain(255), Refusal::NONE),
        ("components_256", chain(256), too_many),
        ("components_257", chain(257), too_many),
        ("components_300", chain(300), too_many),
        ("components_2730", crowded(""), too_many),
    ]
}

/// Well-formed sheets whose length, or the length of whose transcript, is at
/// the edge. A Booted line adds 18 bytes to the transcript of `awaiting`.
fn long_ones() -> Vec<(&'static str, String, Refusal)> {
    let no_room = Refusal::new(8, 0, 0);
    // 75 + 5,951 * 11 is 65,536.
    let longest = ready() + &BOOTED.repeat(5_951);
    let past = ready() + &BOOTED.repeat(5_950) + "E\tBooted\t10\n";
    // 124 + 36 + 3,632 * 18 is 65,536.
    let full = awaiting("") + &BOOTED.repeat(3_632);
    // A third component has 19 bytes at the end: 65,537 with 3,631 lines.
    let over = awaiting(&component(10)) + &BOOTED.repeat(3_631);
    // X and S lines have 23 and 18 bytes: the 1,596th X line does not fit.
    let deferred = awaiting("") + &"E\tUpdateRequest\n".repeat(1_700);
    vec![
        ("sheet_of_65536", longest, Refusal::NONE),
        ("sheet_of_65537", past, Refusal::TOO_LONG),
        ("transcript_of_65536", full.clone(), Refusal::NONE),
        ("transcript_of_65537", over, no_room),
        ("transcript_over_at_S", full + &BOOTED.repeat(9), no_room),
        ("transcript_over_at_X", deferred, no_room),
        (
            "reply_first",
            format!("B\t2\n{}R\tok\n", component(7)),
            Refusal::new(7, 3, 0),
        ),
    ]
}

pub fn extremes() -> Vec<Extreme> {
    let bad_lines = bad_lines()
        .into_iter()
        .map(|(name, text, line)| (name, text, Refusal::new(1, line, 0)));
    let long_ones = long_ones()
        .into_iter()
        .map(|(name, text, refusal)| (name, text.into_bytes(), refusal));
    bad_lines
        .chain(refused_chains())
        .chain(long_ones)
        .map(|(name, text, refusal)| Extreme {
            name,
            text,
            refusal,
        })
        .collect()
}

/// Far more C lines than the programs can be given: the library refuses them by
/// question 3, and by question 1 where the last line is not ended.
pub fn beyond_the_programs() -> Vec<Extreme> {
    let many = format!("B\t2\n{}", components(60_000));
    let cut = many[..many.len() - 1].to_string();
    vec![
        Extreme {
            name: "components_60000",
            text: many.into_bytes(),
            refusal: Refusal::new(3, 0, 0),
        },
        Extreme {
            name: "components_60000_the_last_not_ended",
            text: cut.into_bytes(),
            refusal: Refusal::new(1, 60_001, 0),
        },
    ]
}

#[cfg(test)]
mod tests {
    use super::super::record::Recording;
    use super::*;

    #[test]
    fn the_refusals_written_by_hand_are_given() {
        for extreme in extremes() {
            let refusal = Recording::of_input(&extreme.text).answer().refusal;
            assert_eq!(refusal, extreme.refusal, "{}", extreme.name);
        }
        for extreme in beyond_the_programs() {
            let refusal = Recording::of(&extreme.text).checked().refusal;
            assert_eq!(refusal, extreme.refusal, "{}", extreme.name);
        }
    }

    fn named(name: &str) -> Vec<u8> {
        let mut extremes = extremes().into_iter();
        extremes.find(|extreme| extreme.name == name).unwrap().text
    }

    #[test]
    fn the_long_ones_are_as_long_as_they_say() {
        assert_eq!(named("sheet_of_65536").len(), PROGRAM_BYTES);
        assert_eq!(named("sheet_of_65537").len(), PROGRAM_BYTES + 1);
        for (name, bytes) in [
            ("transcript_of_65536", PROGRAM_BYTES),
            ("transcript_of_65537", PROGRAM_BYTES + 1),
        ] {
            let recording = Recording::of(&named(name));
            assert_eq!(recording.transcript().len(), bytes, "{name}");
        }
        let room = PROGRAM_BYTES - named("components_2730").len();
        assert!(room < component(7).len(), "{room}");
    }

    #[test]
    fn question_8_is_met_at_each_kind_of_line() {
        for (name, last, next) in [
            ("transcript_over_at_X", b'S', b'X'),
            ("transcript_over_at_S", b'S', b'S'),
            ("transcript_of_65537", b'T', b'T'),
        ] {
            let recording = Recording::of(&named(name));
            let written = recording.written();
            let line = written[..written.len() - 1]
                .iter()
                .rposition(|b| *b == b'\n');
            assert_eq!(written[line.unwrap() + 1], last, "{name}");
            assert_eq!(recording.transcript()[written.len()], next, "{name}");
        }
    }
}
