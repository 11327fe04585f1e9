// From crates/binfarce_elf/src/lib.rt, by tools/erase.

//! ELF files of both classes and both byte orders (System V gABI).

pub(crate) mod accessors;
pub mod class;
pub mod header;
pub mod sections;
pub mod symbol_table;
pub mod symbols;
