//! The oracle's opinion on each call that a C program makes of the library;
//! `attack/judge.h` declares these functions. A difference is a panic, and so
//! is a fault that the oracle finds in itself. No panic can leave an
//! `extern "C"` function: it ends the program by abort, after its message.

use std::slice;
use std::sync::Mutex;
use std::sync::atomic::{AtomicU64, Ordering};

use oracle::sheets::record::Recording;
use oracle::sheets::{Answer, Refusal};

/// `struct mallardtray_answer`. The harness has the same, but it would bring
/// `libsheet.a` into this library.
#[repr(C)]
pub struct Given {
    number: u64,
    place: u64,
    other: u64,
    written: u64,
    settled: u64,
}

impl From<Given> for Answer {
    fn from(given: Given) -> Self {
        Answer {
            refusal: Refusal::new(given.number, given.place, given.other),
            written: given.written,
            settled: given.settled,
        }
    }
}

/// The run of a sheet as the oracle makes it, once for all calls on the sheet.
struct Sheet {
    recording: Recording,
    transcript: Vec<u8>,
}

/// The sheet that the calls are about. The next one takes its place, so at most
/// one is kept.
static SHEET: Mutex<Option<Sheet>> = Mutex::new(None);

/// The answers compared so far.
static COMPARED: AtomicU64 = AtomicU64::new(0);

/// # Safety
/// `text` is `length` bytes that can be read, or anything if `length` is 0.
unsafe fn bytes<'a>(text: *const u8, length: usize) -> &'a [u8] {
    if length == 0 {
        return &[];
    }
    // SAFETY: the caller's promise; the bytes are read within one call.
    unsafe { slice::from_raw_parts(text, length) }
}

/// What `opinion` makes of the sheet that the calls are about.
fn compare(opinion: impl FnOnce(&Sheet)) {
    let sheet = SHEET.lock().expect("no call panicked before");
    opinion(sheet.as_ref().expect("judge_sheet was called"));
    COMPARED.fetch_add(1, Ordering::Relaxed);
}

/// # Safety
/// `text` is `length` bytes that can be read, or anything if `length` is 0.
#[unsafe(no_mangle)]
pub unsafe extern "C" fn judge_sheet(text: *const u8, length: usize) {
    // SAFETY: the caller's promise.
    let recording = Recording::of(unsafe { bytes(text, length) });
    let transcript = recording.transcript();
    *SHEET.lock().expect("no call panicked before") = Some(Sheet {
        recording,
        transcript,
    });
}

#[unsafe(no_mangle)]
pub extern "C" fn judge_check(got: Given) {
    compare(|sheet| {
        let (got, expected) = (Answer::from(got), sheet.recording.checked());
        assert!(got == expected, "check gave {got:?}\noracle {expected:?}");
    });
}

/// # Safety
/// `out` is `length` bytes that can be read, or anything if `length` is 0.
#[unsafe(no_mangle)]
pub unsafe extern "C" fn judge_run(out: *const u8, length: usize, limit: u64, got: Given) {
    // SAFETY: the caller's promise.
    let out = unsafe { bytes(out, length) };
    compare(|sheet| {
        let call = format_args!("run with {length} bytes and the limit {limit}");
        let (got, (expected, _)) = (Answer::from(got), sheet.recording.stopped(length, limit));
        assert!(got == expected, "{call} gave {got:?}\noracle {expected:?}");
        // The oracle's answer fits into the buffer, so these bytes are there.
        let wrote = &out[..expected.written as usize];
        let lines = &sheet.transcript[..wrote.len()];
        let (shown, oracle) = (wrote.escape_ascii(), lines.escape_ascii());
        assert!(wrote == lines, "{call} wrote {shown}\noracle {oracle}");
    });
}

#[unsafe(no_mangle)]
pub extern "C" fn judge_compared() -> u64 {
    COMPARED.load(Ordering::Relaxed)
}
