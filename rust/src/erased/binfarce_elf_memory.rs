// From crates/binfarce_elf_memory/src/lib.rt, by tools/erase.

//! What ELF files say beyond the function symbols of a section: the functions of all sections in memory, dynamic symbols
//! and their versions, and where a file is loaded.

pub mod descriptors;
pub mod ends;
pub mod parts;
pub mod segments;
pub mod selection;
pub mod versions;
