//! The exported calls against the reference on sources without end: from bytes that a
//! coverage-guided fuzzer chooses, or from a seed.

pub mod check;
pub mod counters;
pub mod difference;
pub mod generate;
pub mod guided;
pub mod input;
pub mod limits;
pub mod pieces;
pub mod rooms;
pub mod seeds;
pub mod shrink;
