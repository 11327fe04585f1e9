// From crates/binfarce_macho/src/lib.rt, by tools/erase.

//! 64-bit Mach-O files (Apple's `<mach-o/loader.h>` and `<mach-o/nlist.h>`).

pub(crate) mod accessors;
pub(crate) mod commands;
pub mod functions;
pub mod header;
pub mod numbered;
pub mod parts;
pub mod sections;
pub mod symbols;
