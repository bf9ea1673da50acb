//! Compares a library behind the C interface with document 01 and the unchanged Rust.
pub mod call;
pub mod difference;
pub mod exercises;
pub mod grafts;
pub mod judgements;
pub mod kinds;
pub mod lengths;
pub mod names;
pub mod questions;
pub mod readings;
pub mod restatements;
pub mod shrink;
pub mod tally;
pub mod terms;
