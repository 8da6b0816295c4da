//! The runner against the oracle's recordings.

use std::fs;
use std::path::Path;

use oracle::sheets::generate::cases;
use oracle::sheets::read::read as oracle_reads;
use oracle::sheets::record::Recording;

use super::*;

const FILL: u8 = 0xa5;
const NO_LIMIT: u64 = u64::MAX;

/// Events that are lost or put out are counted as settled, since the runner
/// cannot see them.
const UNSEEN: [&str; 3] = [
    "reply_found_8_queued",
    "emit_found_8_queued",
    "newest_put_out",
];

/// The run of a sheet into a buffer of this length, and the whole buffer.
fn into_buffer(sheet: &[u8], length: usize, limit: u64) -> (Answer, Vec<u8>) {
    let mut out = vec![FILL; length];
    let answer = run(sheet, &mut out, limit);
    (answer, out)
}

/// Holds the run of a sheet with this buffer to the recording.
fn same(sheet: &[u8], recording: &Recording, length: usize) {
    let (answer, out) = into_buffer(sheet, length, NO_LIMIT);
    let (expected, _) = recording.stopped(length, NO_LIMIT);
    let given = Refusal::new(answer.number, answer.place, answer.other);
    assert_eq!(given, expected.refusal);
    assert_eq!(answer.written, expected.written);
    let mut bytes = recording.transcript();
    bytes.truncate(expected.written as usize);
    bytes.resize(length, FILL);
    assert!(out == bytes, "the transcript or the bytes behind it");
    assert!(answer.settled >= expected.settled);
    let seen = !recording
        .corners
        .iter()
        .any(|corner| UNSEEN.contains(&corner.as_str()));
    if seen && answer.number != 8 {
        assert_eq!(answer.settled, expected.settled);
    }
}

#[test]
fn the_stored_sheets() {
    let folder = Path::new(env!("CARGO_MANIFEST_DIR")).join("../sheets");
    let mut sheets = 0;
    for file in fs::read_dir(folder).unwrap() {
        let path = file.unwrap().path();
        if path
            .extension()
            .is_some_and(|extension| extension == "sheet")
        {
            let sheet = fs::read(&path).unwrap();
            let stored = fs::read(path.with_extension("transcript")).unwrap();
            let (answer, mut out) = into_buffer(&sheet, 65_536, NO_LIMIT);
            out.truncate(answer.written as usize);
            let refusal = Refusal::new(answer.number, answer.place, answer.other);
            if refusal != Refusal::NONE {
                out.extend(refusal.to_string().into_bytes());
            }
            assert_eq!(out, stored, "{path:?}");
            sheets += 1;
        }
    }
    assert!(sheets > 15, "{sheets}");
}

/// Damaged ones among them, with room for all, for all but one byte, and for
/// half.
#[test]
fn generated_sheets() {
    let mut settled_is_compared = 0;
    for case in cases(2026).take(4_000) {
        let recording = Recording::of(&case.text);
        let whole = recording.transcript().len();
        for length in [whole + 20, whole, whole.saturating_sub(1), whole / 2] {
            same(&case.text, &recording, length);
        }
        settled_is_compared += u32::from(recording.refusal == Refusal::NONE);
    }
    assert!(settled_is_compared > 1_000, "{settled_is_compared}");
}

/// Every line as the oracle reads it, and the same first bad line.
#[test]
fn lines_as_the_oracle_reads_them() {
    for case in cases(7).take(4_000) {
        match (oracle_reads(&case.text), read::read(&case.text)) {
            (Ok(sheet), Ok((head, mut lines))) => {
                assert_eq!(head.max_retry, sheet.max_retry);
                let kept = sheet.entries.len().min(256);
                assert_eq!(&*head.components, &sheet.entries[..kept]);
                for line in sheet.lines {
                    assert_eq!(lines.next_line(), Some(line));
                }
                assert_eq!(lines.next_line(), None);
            }
            (Err(line), Err(bad)) => assert_eq!(line, bad),
            (_, given) => panic!("bad line {:?}", given.err()),
        }
    }
}

/// The limit is met at an E line as in the port; within a dispatch the answer is
/// 9 too.
#[test]
fn the_limit() {
    let sheet = b"B\t2\nC\t7\tActive\tRequired\t0\t-\nE\tPowerGood\tProvisioned\n\
                  E\tVerificationPassed\t7\n";
    let recording = Recording::of(sheet);
    for limit in 0..4 {
        let (answer, _) = into_buffer(sheet, 1_000, limit);
        let (expected, _) = recording.stopped(1_000, limit);
        assert_eq!(answer.number, expected.refusal.number);
        assert_eq!(answer.written, expected.written);
        assert_eq!(answer.settled, expected.settled);
    }
    let fed = b"B\t2\nC\t7\tActive\tRequired\t0\t-\nE\tPowerGood\tProvisioned\nR\tok\n\
                R\tthen\tVerificationPassed\t7\n";
    assert_eq!(into_buffer(fed, 1_000, 1).0.number, 9);
    assert_eq!(into_buffer(fed, 1_000, 2).0.number, 0);
}
