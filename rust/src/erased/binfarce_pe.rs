// From crates/binfarce_pe/src/lib.rt, by tools/erase.

//! PE files with COFF symbols (Microsoft PE Format).

pub(crate) mod accessors;
pub mod functions;
pub mod header;
pub mod names;
pub mod parts;
pub mod sections;
pub mod symbols;
