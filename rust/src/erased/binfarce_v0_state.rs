// From crates/binfarce_v0_state/src/lib.rt, by tools/erase.

//! The state of the printing of a v0 name of a Rust symbol (RFC 2603): its position, its counts, its texts, and the
//! fragments that it may write again.

pub(crate) mod disambiguators;
pub mod fragments;
pub mod memory;
pub mod nesting;
pub mod position;
pub mod state;
pub mod targets;
pub mod text;
