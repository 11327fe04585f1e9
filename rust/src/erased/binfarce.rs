// From crates/binfarce/src/lib.rt, by tools/erase.

//! A small reader of executables: the header, the sections and the function symbols of ELF, Mach-O and PE files.

pub use crate::erased::binfarce_bytes::format::{Format, detect_format};
pub use crate::erased::binfarce_bytes::functions::{FunctionSymbol, SectionFunction, symbol_at};
pub use crate::erased::binfarce_bytes::{ByteOrder, ParseError, UnexpectedEof};
pub use crate::erased::binfarce_elf::symbol_table::SymbolTable;
pub use crate::erased::binfarce_names::demangle;

pub(crate) mod elf;
pub mod elf32;
pub mod elf64;
pub mod macho;
pub mod pe;
pub mod symbols;
