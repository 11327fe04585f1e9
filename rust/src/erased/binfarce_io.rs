// From crates/binfarce_io/src/lib.rt, by tools/erase.

//! The input and output of a command, and why a file is refused.

pub mod fault;
pub mod input;
pub mod message;
pub mod output;
