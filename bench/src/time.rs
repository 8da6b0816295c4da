//! Times of both sides on one sheet, measured in turn. It is the processor time
//! of the thread: what other programs take of a busy machine is not in it.

use std::ffi::{c_int, c_long};
use std::hint::black_box;
use std::time::Duration;

use crate::sides::{Side, buffer};

/// A sample is as many runs in a row as the Rust needs this long for.
const SAMPLE: Duration = Duration::from_micros(400);
/// A sample has at most so many runs.
const MOST_RUNS: u32 = 4_000;

/// One pair of samples: nanoseconds of one run, by side.
#[derive(Clone, Copy)]
pub struct Pair {
    pub port: f64,
    pub rust: f64,
}

/// `struct timespec` and the clock's number, of Linux on x86-64.
#[repr(C)]
struct Clock {
    seconds: i64,
    nanoseconds: c_long,
}

const THREAD_PROCESSOR_TIME: c_int = 3;

unsafe extern "C" {
    fn clock_gettime(clock: c_int, time: *mut Clock) -> c_int;
}

/// The processor time of this thread up to now.
fn now() -> Duration {
    let mut time = Clock {
        seconds: 0,
        nanoseconds: 0,
    };
    // SAFETY: the call writes to `time` alone.
    let failed = unsafe { clock_gettime(THREAD_PROCESSOR_TIME, &mut time) };
    assert_eq!(failed, 0, "no clock");
    Duration::new(time.seconds as u64, time.nanoseconds as u32)
}

/// The nanoseconds of one run, over so many in a row.
fn sample(side: Side, sheet: &[u8], out: &mut [u8], runs: u32) -> f64 {
    let start = now();
    for _ in 0..runs {
        black_box(side.run(black_box(sheet), black_box(out)));
    }
    (now() - start).as_nanos() as f64 / f64::from(runs)
}

/// So many pairs of samples, a port's and a Rust's in turn, after one of each
/// that is not counted. One buffer is used throughout and not cleared.
pub fn pairs(sheet: &[u8], repetitions: usize) -> Vec<Pair> {
    let mut out = buffer();
    let once = best((0..5).map(|_| sample(Side::Rust, sheet, &mut out, 1)));
    let runs = (SAMPLE.as_nanos() as f64 / once).ceil() as u32;
    let runs = runs.clamp(1, MOST_RUNS);
    let mut pair = || Pair {
        port: sample(Side::Port, sheet, &mut out, runs),
        rust: sample(Side::Rust, sheet, &mut out, runs),
    };
    pair();
    (0..repetitions).map(|_| pair()).collect()
}

pub fn best(times: impl Iterator<Item = f64>) -> f64 {
    times.fold(f64::INFINITY, f64::min)
}

/// The lower quartile, the median and the upper quartile.
pub fn quartiles(values: impl Iterator<Item = f64>) -> [f64; 3] {
    let mut values: Vec<f64> = values.collect();
    values.sort_by(f64::total_cmp);
    [1, 2, 3].map(|quarter| values[(values.len() - 1) * quarter / 4])
}

#[cfg(test)]
mod tests {
    use super::*;

    #[test]
    fn quartiles_of_five() {
        let values = [5.0, 1.0, 4.0, 2.0, 3.0];
        assert_eq!(quartiles(values.into_iter()), [2.0, 3.0, 4.0]);
    }
}
