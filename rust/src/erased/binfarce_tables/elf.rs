// From crates/binfarce_tables/src/elf.rt, by tools/erase.

//! The parts of an ELF file that have the function symbols of a selection.

use crate::shim::Vec;
use crate::erased::binfarce_tables::error::ReadError;
use crate::erased::binfarce_tables::opened::{Opened, open};
use crate::erased::binfarce_tables::sections::sections_of;
pub use crate::erased::binfarce_tables::sections::{SectionParts, read_sections};
use crate::erased::binfarce_bytes::functions::Selection;
use crate::erased::binfarce_bytes::source::Source;
use crate::erased::binfarce_bytes::{ByteOrder, ParseError};
use crate::erased::binfarce_elf::class::{Half, Width, Word};
use crate::erased::binfarce_elf::sections::Section;
use crate::erased::binfarce_elf::symbol_table::SymbolTable;
use crate::erased::binfarce_elf::symbols::{TableSections, whole_rows};
use crate::erased::binfarce_elf_memory::descriptors::{needed_descriptors, rows_in_code, stored};
use crate::erased::binfarce_elf_memory::parts::{
    HeaderTable, headers_alone, needed_in, place_in, section_at, sizes_in, version_sections,
};
use crate::erased::binfarce_elf_memory::selection::{Functions, Needed, Taken, functions_in};
use crate::erased::binfarce_elf_memory::versions::{VersionNames, name_offsets};
use crate::shim::alloc::Global;
use crate::shim::collections::BTreeMap;

/// `ET_REL`, the type of an object file.
const RELOCATABLE: Half = 1;

/// The parts of a file that have the function symbols of a selection, and the sections' names, in memory.
pub struct Parts {
    sections: SectionParts,
    rows: Vec<u8>,
    strings: Vec<u8>,
    versions: VersionParts,
    taken: Taken,
    // For all sections, the size of each row in memory.
    sizes: Vec<u64>,
}

impl Parts {
    /// The function symbols of the selection as the file stores them, each with the index of its section, in the order
    /// of the symbol table. Nothing is read or allocated: names are slices of the parts.
    pub fn functions(&self) -> Functions<'_> {
        functions_in(
            &self.rows,
            &self.strings,
            &self.versions.rows,
            self.sections.width,
            self.sections.place.byte_order,
            self.taken,
            self.sections.place.kind.has_modes(),
            &self.sizes,
        )
    }

    /// The name of the section of this index, a slice of the parts; nothing is copied. `None` if there is no such
    /// section, and where `name` of the section gives none.
    pub fn section_name(&self, number: u32) -> Option<&str> {
        self.sections.name_of(number)
    }

    /// The names of the versions that the function symbols have, which the file defines for its dynamic symbols. They
    /// borrow the parts; nothing is copied.
    pub fn version_names(&self) -> VersionNames<'_> {
        VersionNames {
            offsets: Some(&self.versions.names),
            strings: &self.strings,
        }
    }

    /// Whether the selected sections share addresses: all those of an object file (`ET_REL`) do.
    pub fn shares_addresses(&self) -> bool {
        self.taken.size().is_none() && self.sections.place.kind.elf_type == RELOCATABLE
    }
}

/// Reads the parts of a file of this class that a selection's function symbols need by this symbol table, and the
/// section names, numbers in the given order. These are the file header of 52 or 64 bytes, the header of the section
/// names' own section, the section names, all section headers, the symbol table and its strings; for the dynamic symbol
/// table also its versions and their definitions; and for all sections of a 64-bit PowerPC file of ABI version 1 the
/// descriptors of its functions (`.opd`). Each is read once, into memory of its size, which is never more than
/// the file has of it; of the definitions the offsets of names are kept. No other byte is read, except
/// the first byte of a section header table without headers. The magic number isn't checked.
///
/// # Errors
///
/// `Refused` with the error of `parse` or `functions` of a reader of the whole file; `Unreadable` if the source
/// can't be read at offsets, or a read of it fails, and never for a source that can't fail, such as bytes in memory;
/// `OutOfMemory` if an allocation fails.
pub fn read<S: Source>(
    alloc: Global,
    source: &S,
    log: &mut S::Log,
    width: Width,
    byte_order: ByteOrder,
    which: SymbolTable,
    selection: Selection<'_>,
) -> Result<Parts, ReadError> {
    let opened = open(alloc, source)?;
    let sections = sections_of(&opened, log, width, byte_order)?;
    let (headers, width, place) = (&sections.headers, sections.width, sections.place);
    let names = sections.names.as_deref();
    let needed = needed_in(headers, width, place, names, which, selection)?;
    let table = read_placed(&opened, log, &sections, needed)?;
    let versions = read_versions(&opened, log, &sections, which)?;
    let rows = &table.rows;
    let sizes = sizes_in(
        alloc,
        headers,
        width,
        place,
        needed.taken,
        rows,
        &table.strings,
    )?;
    Ok(Parts {
        sections,
        rows: table.rows,
        strings: table.strings,
        versions,
        taken: needed.taken,
        sizes,
    })
}

pub(crate) fn read_place<S: Source>(
    opened: &Opened<'_, S>,
    log: &mut S::Log,
    width: Width,
    byte_order: ByteOrder,
) -> Result<HeaderTable, ReadError> {
    let size = width.header_length() as u64;
    let bytes = opened.within(log, 0, size)?;
    Ok(place_in(&bytes, width, byte_order)?)
}

// The section names, where the file has them.
pub(crate) fn read_names<S: Source>(
    opened: &Opened<'_, S>,
    log: &mut S::Log,
    width: Width,
    place: HeaderTable,
) -> Result<Option<Vec<u8>>, ReadError> {
    let size = width.section_length() as u64;
    let whole = opened.len.saturating_sub(place.shoff) / size;
    if place.shstrndx as u64 >= whole {
        return Ok(None);
    }
    let start = place.shoff + place.shstrndx as u64 * size;
    let header = opened.part(log, start, size)?;
    match section_at(&header, 0, width, place.byte_order, place.shstrndx) {
        Ok(section) => read_contents(opened, log, section),
        Err(_) => Ok(None),
    }
}

// The strings and the rows of a symbol table.
struct TableParts {
    strings: Vec<u8>,
    rows: Vec<u8>,
}

// The bytes of a symbol table's sections; refused as those of a file in memory.
fn read_rows<S: Source>(
    opened: &Opened<'_, S>,
    log: &mut S::Log,
    width: Width,
    sections: TableSections,
) -> Result<TableParts, ReadError> {
    let strings = read_section(opened, log, sections.strings)?;
    let rows = read_section(opened, log, sections.symbols)?;
    let _ = whole_rows(width, &rows)?;
    Ok(TableParts { strings, rows })
}

// The strings and the rows of a selection: the functions that have descriptors where their code is.
fn read_placed<S: Source>(
    opened: &Opened<'_, S>,
    log: &mut S::Log,
    sections: &SectionParts,
    needed: Needed,
) -> Result<TableParts, ReadError> {
    let table = read_rows(opened, log, sections.width, needed.table)?;
    let (width, place) = (sections.width, sections.place);
    let headers = headers_alone(&sections.headers, place.byte_order, place.shnum);
    let names = sections.names.as_deref();
    let found = needed_descriptors(headers, names, width, place.kind, needed.taken);
    let Some(section) = found else {
        return Ok(table);
    };
    let descriptors = read_if(opened, log, stored(section))?;
    let alloc = opened.alloc;
    let rows = rows_in_code(alloc, headers, width, section, &descriptors, &table.rows)?;
    Ok(TableParts {
        strings: table.strings,
        rows,
    })
}

// The versions of the rows of a symbol table, and the offsets of their names.
struct VersionParts {
    rows: Vec<u8>,
    names: BTreeMap<Half, Word>,
}

// Reads them for this symbol table of a file with these sections.
fn read_versions<S: Source>(
    opened: &Opened<'_, S>,
    log: &mut S::Log,
    sections: &SectionParts,
    which: SymbolTable,
) -> Result<VersionParts, ReadError> {
    let headers = &sections.headers;
    let found = version_sections(headers, sections.width, sections.place, which);
    let rows = read_if(opened, log, found.versions)?;
    let definitions = read_if(opened, log, found.definitions)?;
    let names = name_offsets(opened.alloc, &definitions, sections.place.byte_order)?;
    Ok(VersionParts { rows, names })
}

// The bytes of a section, if there is one and they lie in the file.
fn read_if<S: Source>(
    opened: &Opened<'_, S>,
    log: &mut S::Log,
    section: Option<Section<u64>>,
) -> Result<Vec<u8>, ReadError> {
    let Some(section) = section else {
        return Ok(Vec::new(opened.alloc));
    };
    match read_contents(opened, log, section)? {
        None => Ok(Vec::new(opened.alloc)),
        Some(bytes) => Ok(bytes),
    }
}

// The section's bytes, where they lie in the file.
fn read_contents<S: Source>(
    opened: &Opened<'_, S>,
    log: &mut S::Log,
    section: Section<u64>,
) -> Result<Option<Vec<u8>>, ReadError> {
    let (offset, size) = (section.offset(), section.size());
    match opened.within(log, offset, size) {
        Ok(bytes) => Ok(Some(bytes)),
        Err(ReadError::Refused(_)) => Ok(None),
        Err(e) => Err(e),
    }
}

// The section's bytes; refused as those of a file in memory.
fn read_section<S: Source>(
    opened: &Opened<'_, S>,
    log: &mut S::Log,
    section: Section<u64>,
) -> Result<Vec<u8>, ReadError> {
    let (offset, size) = (section.offset(), section.size());
    let Some(_) = offset.checked_add(size) else {
        return Err(ReadError::Refused(ParseError::MalformedInput));
    };
    opened.within(log, offset, size)
}
