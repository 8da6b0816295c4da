//! A stand-in for the crate `heapless` with only the calls that the
//! orchestrator makes, each with the meaning that heapless documents. Storage
//! is a fixed array, as in heapless. Elements are `Copy` (those of the
//! orchestrator are), so nothing has to be dropped.
//!
//! The module `plant` is no part of heapless. Only with the feature of that name
//! does a queue ask for what is planted.

#![no_std]

extern crate std;

mod deque;
pub mod plant;
mod vec;

pub use deque::Deque;
pub use vec::{IntoIter, Vec};
