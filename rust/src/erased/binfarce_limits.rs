// From crates/binfarce_limits/src/lib.rt, by tools/erase.

//! Limits on rows of sums: read from a file, and held against what is counted.

pub mod excess;
pub mod reading;
pub mod rows;
