//! The two calls of `mallardtray.h` as safe functions.

/// What a call gives. `mallardtray.h` says what the numbers mean.
#[repr(C)]
#[derive(Clone, Copy, PartialEq, Eq, Debug)]
pub struct Answer {
    pub number: u64,
    pub place: u64,
    pub other: u64,
    /// Bytes of whole transcript lines; 0 after check.
    pub written: u64,
    /// Events taken from the queue; 0 after check.
    pub settled: u64,
}

mod library {
    use super::Answer;

    unsafe extern "C" {
        pub fn mallardtray_check(sheet: *const u8, sheet_len: usize) -> Answer;
        pub fn mallardtray_run(
            sheet: *const u8,
            sheet_len: usize,
            out: *mut u8,
            out_len: usize,
            limit: u64,
        ) -> Answer;
    }
}

/// A call of the library.
enum Call<'a> {
    Check,
    Run { out: &'a mut [u8], limit: u64 },
}

/// Puts questions 1 to 6 to a sheet.
pub fn check(sheet: &[u8]) -> Answer {
    call(sheet, Call::Check)
}

/// Runs a sheet and writes its transcript to `out`. At most `limit` events are
/// settled. The bytes of `out` from `written` on keep their content.
pub fn run(sheet: &[u8], out: &mut [u8], limit: u64) -> Answer {
    call(sheet, Call::Run { out, limit })
}

fn call(sheet: &[u8], call: Call) -> Answer {
    // SAFETY: each pointer comes from a slice and goes with its length, so the
    // memory is there for the whole call. `out` is borrowed alone and `sheet` is
    // only read, so the two do not overlap. The library keeps neither of them.
    // The declarations above are those of mallardtray.h.
    unsafe {
        match call {
            Call::Check => library::mallardtray_check(sheet.as_ptr(), sheet.len()),
            Call::Run { out, limit } => library::mallardtray_run(
                sheet.as_ptr(),
                sheet.len(),
                out.as_mut_ptr(),
                out.len(),
                limit,
            ),
        }
    }
}
