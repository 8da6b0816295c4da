//! How much stack a run needs, as board/stack.c measures it: it runs in a thread
//! whose stack was filled with a known byte, and one looks how far down that was
//! changed.

use std::ffi::{c_int, c_void};
use std::ptr;

use crate::sides::{Side, buffer};

const STACK_BYTES: usize = 8 << 20;
const PAGE: usize = 4096;
const FILL: u8 = 0xa5;

/// `pthread_attr_t` of Linux on x86-64 has 56 bytes.
#[repr(C, align(8))]
struct Attributes([u8; 56]);

type Body = extern "C" fn(*mut c_void) -> *mut c_void;

unsafe extern "C" {
    fn pthread_attr_init(attributes: *mut Attributes) -> c_int;
    fn pthread_attr_setstack(attributes: *mut Attributes, stack: *mut c_void, size: usize)
    -> c_int;
    fn pthread_create(
        thread: *mut usize,
        attributes: *const Attributes,
        body: Body,
        argument: *mut c_void,
    ) -> c_int;
    fn pthread_join(thread: usize, value: *mut *mut c_void) -> c_int;
}

struct Job<'a> {
    side: Side,
    sheet: &'a [u8],
    out: Vec<u8>,
}

extern "C" fn idle(argument: *mut c_void) -> *mut c_void {
    argument
}

extern "C" fn work(argument: *mut c_void) -> *mut c_void {
    // SAFETY: `changed` is given a job, which nobody else uses until the thread
    // has ended.
    let job = unsafe { &mut *argument.cast::<Job>() };
    job.side.run(job.sheet, &mut job.out);
    argument
}

/// The bytes of stack that a run of the sheet needs. A thread that does nothing
/// needs some too; that is not counted.
pub fn needed(side: Side, sheet: &[u8]) -> usize {
    let mut job = Job {
        side,
        sheet,
        out: buffer(),
    };
    changed(work, &mut job) - changed(idle, &mut job)
}

/// What a thread changes of its stack.
fn changed(body: Body, job: &mut Job) -> usize {
    let mut memory = vec![FILL; STACK_BYTES + PAGE];
    let start = memory.as_ptr().align_offset(PAGE);
    let stack = &mut memory[start..start + STACK_BYTES];
    let mut attributes = Attributes([0; 56]);
    let mut thread = 0;
    // SAFETY: attributes, stack and job live until the thread is joined, and
    // nothing here touches them meanwhile.
    let failures = unsafe {
        pthread_attr_init(&mut attributes)
            + pthread_attr_setstack(&mut attributes, stack.as_mut_ptr().cast(), STACK_BYTES)
            + pthread_create(&mut thread, &attributes, body, ptr::from_mut(job).cast())
            + pthread_join(thread, ptr::null_mut())
    };
    assert_eq!(failures, 0, "no thread");
    let kept = stack.iter().take_while(|byte| **byte == FILL).count();
    STACK_BYTES - kept
}

#[cfg(test)]
mod tests {
    use super::*;
    use crate::workloads::Workload;

    /// More than a page, and far from the end of what was given.
    #[test]
    fn both_sides_need_some() {
        let sheet = Workload::named("fan").unwrap().sheet(8);
        for side in [Side::Port, Side::Rust] {
            let bytes = needed(side, &sheet);
            assert!((PAGE..STACK_BYTES / 2).contains(&bytes), "{bytes}");
        }
    }
}
