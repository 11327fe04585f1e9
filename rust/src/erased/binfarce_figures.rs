// From crates/binfarce_figures/src/lib.rt, by tools/erase.

//! Function symbols of executables in an order, sums of their sizes by a key, and how the sums of two files differ.

pub mod claims;
pub mod diff;
pub(crate) mod figures;
pub(crate) mod generic;
pub mod key;
pub mod map;
pub(crate) mod module;
pub mod order;
pub mod rows;
pub mod stacks;
pub mod sums;
