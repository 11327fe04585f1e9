// From crates/binfarce/src/elf32.rt, by tools/erase.

//! 32-bit ELF files of either byte order (System V gABI).

use crate::erased::binfarce::elf;
use crate::erased::binfarce_bytes::{ByteOrder, ParseError};
use crate::erased::binfarce_elf::{header, sections};
use crate::erased::binfarce_elf_memory::selection;

// The word of this class (gABI, "Data Representation"), which names the class.
type Address = u32;

type Offset = u32;

/// A 32-bit ELF file. It borrows the file's bytes.
pub type Elf32<'a> = elf::Elf<'a, Address>;

/// The file header of a 32-bit file.
pub type Elf32Header = header::Header<Address>;

/// A section header's values in a 32-bit file, and the section's index.
pub type Section = sections::Section<Offset>;

/// An iterator over the sections of a 32-bit file: the result of [`Elf32::sections`](elf::Elf::sections).
pub type Sections<'a> = sections::Sections<'a, Offset>;

/// An iterator over the function symbols of a section: the result of [`Elf32::functions`](elf::Elf::functions).
pub type Functions<'a> = elf::Functions<'a>;

/// An iterator over the function symbols of all sections: the result of
/// [`Elf32::all_functions`](elf::Elf::all_functions).
pub type AllFunctions<'a> = selection::Functions<'a>;

/// Reads the file header in the given order. The magic number isn't checked. Nothing is copied.
///
/// # Errors
///
/// `UnexpectedEof` for fewer than 52 bytes.
pub fn parse(file: &[u8], byte_order: ByteOrder) -> Result<Elf32<'_>, ParseError> {
    elf::parse(file, byte_order)
}
