// From crates/binfarce_legacy/src/lib.rt, by tools/erase.

//! Legacy names of Rust symbols: reading them, and printing their readable form.

pub mod elements;
pub(crate) mod escapes;
pub mod legacy;
pub(crate) mod runs;
