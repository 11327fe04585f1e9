// From crates/binfarce_needs/src/reading.rt, by tools/erase.

//! The tables that say what a file needs, read at their offsets.

use crate::shim::Vec;
use crate::erased::binfarce_bytes::source::Source;
use crate::erased::binfarce_bytes::{ByteOrder, ParseError};
use crate::erased::binfarce_elf::class::{Class, Width};
use crate::erased::binfarce_elf::sections::Section;
use crate::erased::binfarce_elf::symbol_table::SymbolTable;
use crate::erased::binfarce_elf::symbols::{
    TableSections, section_of_kind, table_sections, whole_rows,
};
use crate::erased::binfarce_elf_memory::parts::{
    HeaderTable, headers_alone, place_in, version_sections,
};
use crate::erased::binfarce_tables::{Opened, ReadError, open};
use crate::shim::alloc::Global;

/// The bytes of the tables that say what a file needs.
pub struct Tables {
    /// The rows of the symbol table.
    pub rows: Vec<u8>,
    /// The strings of the symbol table.
    pub strings: Vec<u8>,
    /// The versions of the rows (`SHT_GNU_versym`), if the file has them.
    pub versions: Vec<u8>,
    /// The versions that are needed from other files (`SHT_GNU_verneed`), if the file has them.
    pub needed: Vec<u8>,
}

// The sections of these tables.
#[derive(Clone, Copy)]
pub(crate) struct NeedSections {
    table: TableSections,
    versions: Option<Section<u64>>,
    needed: Option<Section<u64>>,
}

/// Reads the tables of an ELF file of this class, numbers in the given order: the dynamic symbol table, its strings, the
/// versions of its rows and those that are needed from other files; of a file without it the symbol table `.symtab` and
/// its strings. They are found by the file header and all section headers. Each is read once, into memory of its size,
/// which is never more than the file has of it. No other byte is read. The magic number isn't checked.
///
/// # Errors
///
/// `Refused` with `UnexpectedEof` if the file is too short for its header, or what is read ends past it, with
/// `MalformedInput` for a section whose end is no number of 64 bits, with `SectionIsMissing` of `.symtab` for a file with
/// neither symbol table, and with `SectionIsMissing` or `UnexpectedSectionType` for one whose strings aren't in a string
/// table; `Unreadable` if the source can't be read at offsets, or a read of it fails, and never for a source that can't
/// fail, such as bytes in memory; `OutOfMemory` if an allocation fails.
pub fn read_needs<S: Source>(
    alloc: Global,
    source: &S,
    log: &mut S::Log,
    width: Width,
    byte_order: ByteOrder,
) -> Result<Tables, ReadError> {
    let opened = open(alloc, source)?;
    read_file(&opened, log, width, byte_order)
}

// Those of a file of this length.
fn read_file<S: Source>(
    opened: &Opened<'_, S>,
    log: &mut S::Log,
    width: Width,
    byte_order: ByteOrder,
) -> Result<Tables, ReadError> {
    let head = opened.within(log, 0, width.header_length() as u64)?;
    let place = place_in(&head, width, byte_order)?;
    read_headers(opened, log, width, place)
}

// Those of a file whose section headers are at this place.
fn read_headers<S: Source>(
    opened: &Opened<'_, S>,
    log: &mut S::Log,
    width: Width,
    place: HeaderTable,
) -> Result<Tables, ReadError> {
    if place.shnum == 0 {
        return Err(ReadError::Refused(ParseError::SectionIsMissing(".symtab")));
    }
    let size = u64::from(place.shnum) * width.section_length() as u64;
    let headers = opened.within(log, place.shoff, size)?;
    let sections = need_sections(&headers, width, place)?;
    read_tables(opened, log, width, sections)
}

// The sections that are read, found in these section headers.
fn need_sections(
    headers: &[u8],
    width: Width,
    place: HeaderTable,
) -> Result<NeedSections, ParseError> {
    match width {
        Width::Bits32 => sections_in::<u32>(headers, place),
        Width::Bits64 => sections_in::<u64>(headers, place),
    }
}

// So by the class.
fn sections_in<C: Class>(headers: &[u8], place: HeaderTable) -> Result<NeedSections, ParseError> {
    let table = headers_alone(headers, place.byte_order, place.shnum);
    let which = match section_of_kind::<C>(table, SymbolTable::Dynsym.section_type())? {
        Some(_) => SymbolTable::Dynsym,
        None => SymbolTable::Symtab,
    };
    let sections = table_sections::<C>(table, which)?;
    let found = version_sections(headers, C::width(), place, which);
    Ok(NeedSections {
        table: sections,
        versions: found.versions,
        needed: found.needs,
    })
}

// Reads the tables in these sections.
fn read_tables<S: Source>(
    opened: &Opened<'_, S>,
    log: &mut S::Log,
    width: Width,
    sections: NeedSections,
) -> Result<Tables, ReadError> {
    let strings = read_section(opened, log, sections.table.strings)?;
    let rows = read_section(opened, log, sections.table.symbols)?;
    let _ = whole_rows(width, &rows)?;
    let versions = read_if(opened, log, sections.versions)?;
    let needed = read_if(opened, log, sections.needed)?;
    Ok(Tables {
        rows,
        strings,
        versions,
        needed,
    })
}

// The bytes of a section, if there is one; else none.
fn read_if<S: Source>(
    opened: &Opened<'_, S>,
    log: &mut S::Log,
    section: Option<Section<u64>>,
) -> Result<Vec<u8>, ReadError> {
    match section {
        Some(section) => read_section(opened, log, section),
        None => Ok(Vec::new(opened.alloc)),
    }
}

// The bytes of a section.
fn read_section<S: Source>(
    opened: &Opened<'_, S>,
    log: &mut S::Log,
    section: Section<u64>,
) -> Result<Vec<u8>, ReadError> {
    let (offset, size) = (section.offset(), section.size());
    let Some(_) = offset.checked_add(size) else {
        return Err(ReadError::Refused(ParseError::MalformedInput));
    };
    opened.within(log, offset, size)
}
