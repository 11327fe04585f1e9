// From crates/binfarce_sections/src/sections.rt, by tools/erase.

//! The sections of a file of any format, one after the other.

use crate::erased::binfarce_sections::error::SectionError;
use crate::erased::binfarce_sections::kinds::SectionType;
use crate::erased::binfarce::{ByteOrder, Format, ParseError, detect_format, macho, pe};
use crate::erased::binfarce_elf::sections::{self as elf_sections, is_named_in, name_in};
use crate::erased::binfarce_elf_memory::parts::{AnySections, sections_of_file};
use crate::erased::binfarce_pe::header::parse_header;
use crate::erased::binfarce_pe::names::{full_name, strings_of};
use crate::erased::binfarce_pe::parts::places_after;
use crate::erased::binfarce_tables::Width;
use crate::erased::binfarce_tables::elf::SectionParts;

/// A section of a file of any format. Its names are slices of the file; nothing is copied.
#[derive(Debug, Clone, Copy)]
pub struct Section<'a> {
    /// In a Mach-O file the name of its segment (`segname`), as `__TEXT`; elsewhere `None`.
    pub segment: Option<&'a str>,
    /// Its name; `None` for an ELF section without one. In a PE file one of more than 8 bytes is in the string table; where
    /// it isn't there, this is the name in its header, as `/4`.
    pub name: Option<&'a str>,
    /// The address of its first byte in memory (`sh_addr`, `addr`); in a PE file counted from the image base
    /// (`VirtualAddress`).
    pub address: u64,
    /// Where its bytes begin in the file (`sh_offset`, `offset`, `PointerToRawData`), as the file states it.
    pub offset: u64,
    /// Its size in bytes (`sh_size`, `size`), as the file states it. In a PE file, the smaller one of `VirtualSize` and
    /// `SizeOfRawData`, or the other one where one is 0.
    pub size: u64,
    /// Whether it has bytes in the file: not in ELF where its type is `SHT_NOBITS`, not in Mach-O where it is filled
    /// with zeros by its type, or its offset is 0, and not in PE where `PointerToRawData` or `SizeOfRawData` is 0.
    pub has_bytes: bool,
    /// Its type.
    pub kind: SectionType,
    /// Its flags (`sh_flags`, `flags`, `Characteristics`); 0 in a Mach-O or PE file that ends before them.
    pub flags: u64,
    /// How many bytes it has in the file, as the file states it: its size, or 0 if it has none there. In a PE file
    /// `SizeOfRawData`, which an image rounds up.
    pub file_size: u64,
    /// How many bytes it has in memory: in ELF its size where its flags have `SHF_ALLOC`, else 0; in Mach-O its size; in
    /// PE `VirtualSize`, or `SizeOfRawData` if that is 0, as in an object file.
    pub memory_size: u64,
}

/// An iterator over the sections of a file, in file order. It borrows the file's bytes.
///
/// A section is read on demand. An error is given for one that can't be read; nothing follows it.
#[must_use = "iterators are lazy and do nothing unless consumed"]
#[derive(Clone)]
pub enum Sections<'a> {
    Elf(ElfSections<'a>),
    Macho(macho::Sections<'a>),
    Pe(PeSections<'a>),
}

/// The sections of an ELF file that are left, and the bytes of the section names, where the file has them.
#[derive(Clone)]
pub struct ElfSections<'a> {
    names: Option<&'a [u8]>,
    left: AnySections<'a>,
}

/// The sections of a PE file that are left, and the string table, where long names are.
#[derive(Clone)]
pub struct PeSections<'a> {
    strings: &'a [u8],
    left: pe::Sections<'a>,
}

impl<'a> Iterator for Sections<'a> {
    type Item = Result<Section<'a>, ParseError>;

    fn next(&mut self) -> Option<Result<Section<'a>, ParseError>> {
        match self {
            Sections::Elf(sections) => sections.next(),
            Sections::Macho(left) => next_macho(left),
            Sections::Pe(sections) => sections.next(),
        }
    }
}

/// The sections of a file, in the format that its first bytes name. Nothing is allocated.
///
/// # Errors
///
/// `Unknown` if the format isn't supported; `Parse` if the file is too short for its header.
pub fn sections_of(file: &[u8]) -> Result<Sections<'_>, SectionError> {
    match detect_format(file) {
        Format::Elf32 { byte_order } => Ok(open_elf(file, Width::Bits32, byte_order)?),
        Format::Elf64 { byte_order } => Ok(open_elf(file, Width::Bits64, byte_order)?),
        Format::Macho => Ok(open_macho(file)?),
        Format::PE => Ok(open_pe_file(file)?),
        Format::Unknown => Err(SectionError::Unknown),
    }
}

fn open_elf(bytes: &[u8], width: Width, byte_order: ByteOrder) -> Result<Sections<'_>, ParseError> {
    let (left, names) = sections_of_file(bytes, width, byte_order)?;
    Ok(Sections::Elf(ElfSections { names, left }))
}

// The sections of a file, from its parts that were read.
pub(crate) fn elf_sections_of(parts: &SectionParts) -> Sections<'_> {
    let names = parts.names();
    let left = parts.sections();
    Sections::Elf(ElfSections { names, left })
}

pub(crate) fn open_macho(bytes: &[u8]) -> Result<Sections<'_>, ParseError> {
    Ok(Sections::Macho(macho::parse(bytes)?.sections()))
}

fn open_pe_file(bytes: &[u8]) -> Result<Sections<'_>, ParseError> {
    let (signature, header) = parse_header(bytes)?;
    open_pe(bytes, strings_of(bytes, places_after(signature, header)))
}

// The sections of a file that begins with these bytes, with long names from this string table.
pub(crate) fn open_pe<'a>(bytes: &'a [u8], strings: &'a [u8]) -> Result<Sections<'a>, ParseError> {
    let left = pe::parse(bytes)?.sections();
    Ok(Sections::Pe(PeSections { strings, left }))
}

impl<'a> ElfSections<'a> {
    // The first section that is left, or why it can't be read.
    fn next(&mut self) -> Option<Result<Section<'a>, ParseError>> {
        match self.left.next()? {
            Ok(section) => Some(Ok(elf_section(self.names, section))),
            Err(e) => Some(Err(e)),
        }
    }

    // The first section with this name, of those that are left. Names are compared and not read whole, since many long
    // ones can share their bytes.
    pub(crate) fn first_named(self, name: &str) -> Result<Option<Section<'a>>, ParseError> {
        let ElfSections { names, left } = self;
        for section in left {
            let section = section?;
            if is_elf_named(names, &section, name) {
                return Ok(Some(elf_section(names, section)));
            }
        }
        Ok(None)
    }
}

fn next_macho<'a>(left: &mut macho::Sections<'a>) -> Option<Result<Section<'a>, ParseError>> {
    Some(left.next()?.map(macho_section))
}

impl<'a> PeSections<'a> {
    // The first section that is left, or why it can't be read.
    fn next(&mut self) -> Option<Result<Section<'a>, ParseError>> {
        match self.left.next()? {
            Ok(section) => Some(Ok(pe_section(self.strings, section))),
            Err(e) => Some(Err(e)),
        }
    }
}

fn elf_section<'a>(names: Option<&'a [u8]>, section: elf_sections::Section<u64>) -> Section<'a> {
    Section {
        segment: None,
        name: name_in(names, &section),
        address: section.address(),
        offset: section.offset(),
        size: section.size(),
        has_bytes: section.section_type() != SHT_NOBITS,
        kind: SectionType::Elf(section.section_type()),
        flags: section.flags(),
        file_size: section.file_size(),
        memory_size: section.memory_size(),
    }
}

fn is_elf_named(names: Option<&[u8]>, section: &elf_sections::Section<u64>, name: &str) -> bool {
    is_named_in(names, section, name)
}

fn macho_section(section: macho::Section<'_>) -> Section<'_> {
    Section {
        segment: Some(section.segment_name()),
        name: Some(section.name()),
        address: section.address(),
        offset: u64::from(section.offset()),
        size: section.size(),
        has_bytes: !(section.is_zero_filled() || section.offset() == 0),
        kind: SectionType::Macho(section.section_type()),
        flags: u64::from(section.flags()),
        file_size: section.file_size(),
        memory_size: section.size(),
    }
}

fn pe_section<'a>(strings: &'a [u8], section: pe::Section<'a>) -> Section<'a> {
    Section {
        segment: None,
        name: Some(full_name(strings, section.name())),
        address: u64::from(section.address()),
        offset: u64::from(section.offset()),
        size: u64::from(pe_size(section.virtual_size(), section.size())),
        has_bytes: section.offset() != 0 && section.size() != 0,
        kind: SectionType::Pe,
        flags: u64::from(section.characteristics()),
        file_size: u64::from(section.file_size()),
        memory_size: u64::from(section.memory_size()),
    }
}

// The smaller one of `VirtualSize` and `SizeOfRawData`, or the other one where one is 0.
fn pe_size(virtual_size: u32, raw_size: u32) -> u32 {
    match (virtual_size, raw_size) {
        (0, size) | (size, 0) => size,
        _ => virtual_size.min(raw_size),
    }
}

// A section of this type has no bytes in the file (gABI, "Sections").
const SHT_NOBITS: u32 = 8;
