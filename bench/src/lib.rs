//! Compares how fast the port and the published Rust run the same sheets. The
//! port is `mallardtray_run`; the Rust is `dispatch_with` behind a runner of
//! sheets. docs/BENCHMARKS.md says what is measured, and how.

pub mod compare;
pub mod plot;
pub mod runner;
pub mod scaling;
pub mod sides;
pub mod stack;
pub mod time;
pub mod workloads;
