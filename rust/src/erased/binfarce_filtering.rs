// From crates/binfarce_filtering/src/lib.rt, by tools/erase.

//! Demangles the names in a text: whole, in parts, or as a stream.

pub mod filter;
pub mod stream;
