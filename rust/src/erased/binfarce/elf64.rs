// From crates/binfarce/src/elf64.rt, by tools/erase.

//! 64-bit ELF files of either byte order (System V gABI).

use crate::erased::binfarce::elf;
use crate::erased::binfarce_bytes::{ByteOrder, ParseError};
use crate::erased::binfarce_elf::{header, sections};
use crate::erased::binfarce_elf_memory::selection;

// The word of this class (gABI, "Data Representation"), which names the class.
type Address = u64;

type Offset = u64;

/// A 64-bit ELF file. It borrows the file's bytes.
pub type Elf64<'a> = elf::Elf<'a, Address>;

/// The file header of a 64-bit file.
pub type Elf64Header = header::Header<Address>;

/// A section header's values in a 64-bit file, and the section's index.
pub type Section = sections::Section<Offset>;

/// An iterator over the sections of a 64-bit file: the result of [`Elf64::sections`](elf::Elf::sections).
pub type Sections<'a> = sections::Sections<'a, Offset>;

/// An iterator over the function symbols of a section: the result of [`Elf64::functions`](elf::Elf::functions).
pub type Functions<'a> = elf::Functions<'a>;

/// An iterator over the function symbols of all sections: the result of
/// [`Elf64::all_functions`](elf::Elf::all_functions).
pub type AllFunctions<'a> = selection::Functions<'a>;

/// Reads the file header in the given order. The magic number isn't checked. Nothing is copied.
///
/// # Errors
///
/// `UnexpectedEof` for fewer than 64 bytes.
pub fn parse(file: &[u8], byte_order: ByteOrder) -> Result<Elf64<'_>, ParseError> {
    elf::parse(file, byte_order)
}
