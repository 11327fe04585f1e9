// From crates/binfarce_sections/src/tables.rt, by tools/erase.

//! The tables of a file's sections, read from a source.

use crate::shim::Vec;
use crate::erased::binfarce_sections::bytes::first_in;
use crate::erased::binfarce_sections::error::SectionError;
use crate::erased::binfarce_sections::sections::{
    Section, Sections, elf_sections_of, open_macho, open_pe,
};
use crate::erased::binfarce::Format;
use crate::erased::binfarce_bytes::source::Source;
use crate::erased::binfarce_tables::format::read_format;
use crate::erased::binfarce_tables::{Beginning, ReadError, Width, elf, macho, part, pe};
use crate::shim::alloc::Global;

/// The tables of a file's sections.
pub enum Tables {
    Elf(elf::SectionParts),
    Macho(Beginning),
    Pe(pe::SectionParts),
    /// Those of a file whose format isn't supported.
    Unknown,
}

impl Tables {
    /// The sections of the file that the tables were read of, in file order. Nothing is read.
    ///
    /// # Errors
    ///
    /// `Unknown` if the format isn't supported; `Parse` if the file is too short for its header.
    pub fn sections(&self) -> Result<Sections<'_>, SectionError> {
        match self {
            Tables::Elf(parts) => Ok(elf_sections_of(parts)),
            Tables::Macho(beginning) => Ok(open_macho(beginning.bytes())?),
            Tables::Pe(parts) => Ok(open_pe(parts.beginning.bytes(), &parts.strings)?),
            Tables::Unknown => Err(SectionError::Unknown),
        }
    }

    // How many bytes the file had.
    pub(crate) fn file_length(&self) -> u64 {
        match self {
            Tables::Elf(parts) => parts.file_length(),
            Tables::Macho(beginning) => beginning.file_length(),
            Tables::Pe(parts) => parts.beginning.file_length(),
            Tables::Unknown => 0,
        }
    }
}

/// Reads the tables of a file's sections from a source. Of the source only these bytes are read: the first 8 bytes, which
/// name the format, and those that `read_sections` of `binfarce_tables` reads of a file of that format.
///
/// # Errors
///
/// `Refused` if the file is too short for its header. `Unreadable` if the source can't be read at offsets, or a read
/// of it fails; `OutOfMemory` if an allocation failed.
pub fn read<S: Source>(alloc: Global, source: &S, log: &mut S::Log) -> Result<Tables, ReadError> {
    let format = read_format(alloc, source, log)?;
    read_as(alloc, source, log, format)
}

// The tables of the sections of a file of this format.
fn read_as<S: Source>(
    alloc: Global,
    source: &S,
    log: &mut S::Log,
    format: Format,
) -> Result<Tables, ReadError> {
    match format {
        Format::Elf32 { byte_order } => {
            let parts = elf::read_sections(alloc, source, log, Width::Bits32, byte_order)?;
            Ok(Tables::Elf(parts))
        }
        Format::Elf64 { byte_order } => {
            let parts = elf::read_sections(alloc, source, log, Width::Bits64, byte_order)?;
            Ok(Tables::Elf(parts))
        }
        Format::Macho => Ok(Tables::Macho(macho::read_sections(alloc, source, log)?)),
        Format::PE => Ok(Tables::Pe(pe::read_sections(alloc, source, log)?)),
        Format::Unknown => Ok(Tables::Unknown),
    }
}

// The bytes of the first section of this name, read from the source.
pub(crate) fn read_named<F: Source>(
    alloc: Global,
    source: &F,
    log: &mut F::Log,
    name: &str,
) -> Result<Vec<u8>, SectionError> {
    let tables = read(alloc, source, log)?;
    let sections = tables.sections()?;
    let found = first_in(sections, name)?;
    match found {
        Some(section) => read_bytes(alloc, source, log, tables.file_length(), section),
        None => Err(SectionError::NoSection),
    }
}

// The bytes of a section, read from a source of this length.
fn read_bytes<F: Source>(
    alloc: Global,
    source: &F,
    log: &mut F::Log,
    len: u64,
    section: Section<'_>,
) -> Result<Vec<u8>, SectionError> {
    if !section.has_bytes {
        return Err(SectionError::NoBytes);
    }
    let end = section
        .offset
        .checked_add(section.size)
        .ok_or(SectionError::PastEnd)?;
    if end > len {
        return Err(SectionError::PastEnd);
    }
    Ok(part(alloc, source, log, section.offset, section.size)?)
}
