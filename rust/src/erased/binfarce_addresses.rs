// From crates/binfarce_addresses/src/lib.rt, by tools/erase.

//! Symbolizes addresses in an executable: the function symbol that holds each, and the offset into it.

pub mod at;
pub mod counts;
pub mod digits;
pub mod lookup;
pub mod names;
pub mod ranges;
pub(crate) mod slices;
pub mod stream;

pub use crate::erased::binfarce_addresses::counts::Counts;
pub use crate::erased::binfarce_addresses::lookup::Lookup;
pub use crate::erased::binfarce_rows::address::parse_address;
