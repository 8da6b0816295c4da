//! Compares the port with the published Rust. The Rust is the oracle: every
//! expected answer comes from it, or from document 01 where the Rust cannot be
//! asked.

pub mod command;
pub mod compare;
pub mod histories;
pub mod lists;
pub mod random;
pub mod sheets;
pub mod small;
pub mod steps;
pub mod subject;
pub mod tally;
