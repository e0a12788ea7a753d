//! Compares two implementations of document 01 on the same inputs: the proved functions of the archive, and a second reading in plain Rust.
//!
//! An input (`input`) is all that is lent to the functions that are asked about it. It is made from a seed (`generator`), read from a line
//! that was kept (`kept`), or stored in the repository with its answer (`stored`). Two engines (`engines`) are asked the same, and their
//! answers (`answers`) are compared whole and counted (`tally`). Tests look at some flows before they are rounded (`exact`).

pub mod answers;
pub mod dice;
pub mod engines;
pub mod exact;
pub mod generator;
pub mod input;
mod json;
pub mod kept;
pub mod session;
pub mod slices;
pub mod stored;
pub mod tally;

/// A number that no answer has, and that fills memory before a call.
pub const FILL: i64 = -7_777_777_777_777;

/// A block that no refusal names here.
pub const NO_BLOCK: usize = 7_777_777;
