// From crates/binfarce_elf_memory/src/parts.rt, by tools/erase.

//! The section header table of a file of either class, and the sections found in it alone.

use crate::shim::Vec;
use crate::erased::binfarce_elf_memory::ends::{FileKind, keys_of, kind_of, sizes_of};
use crate::erased::binfarce_elf_memory::selection::{Needed, Taken, needed_of};
use crate::erased::binfarce_elf_memory::versions::{
    DEFINITIONS, NEEDS, VERSIONS, whole_section_of_kind,
};
use crate::erased::binfarce_bytes::functions::Selection;
use crate::erased::binfarce_bytes::parser::UnexpectedEof;
use crate::erased::binfarce_bytes::{ByteOrder, ParseError};
use crate::erased::binfarce_elf::class::{Class, Half, Width, Word};
use crate::erased::binfarce_elf::header::parse_header;
use crate::erased::binfarce_elf::sections::{
    self, Section, Sections, Table, name_in, names_bytes, section_table, sections_of,
};
use crate::erased::binfarce_elf::symbol_table::SymbolTable;
use crate::erased::binfarce_elf::symbols::Rows;
use crate::shim::alloc::{AllocError, Global};

/// The file header's fields for the section headers, the file's type and machine, and its byte order.
#[derive(Clone, Copy)]
pub struct HeaderTable {
    pub byte_order: ByteOrder,
    pub shoff: u64,
    pub shnum: Half,
    pub shstrndx: Half,
    pub kind: FileKind,
    /// Where the program headers begin, and their number.
    pub phoff: u64,
    pub phnum: Half,
}

/// These fields of the header of a file of this class. `UnexpectedEof` if the header is truncated.
pub fn place_in(file: &[u8], width: Width, byte_order: ByteOrder) -> Result<HeaderTable, ParseError> {
    match width {
        Width::Bits32 => place_of::<u32>(file, byte_order),
        Width::Bits64 => place_of::<u64>(file, byte_order),
    }
}

fn place_of<C: Class>(file: &[u8], byte_order: ByteOrder) -> Result<HeaderTable, ParseError> {
    let header = parse_header::<C>(file, byte_order)?;
    Ok(HeaderTable {
        byte_order,
        shoff: header.shoff.widened(),
        shnum: header.shnum,
        shstrndx: header.shstrndx,
        kind: kind_of(&header),
        phoff: header.phoff.widened(),
        phnum: header.phnum,
    })
}

/// The section header at `start` in a file of this class; refused if it is truncated.
#[cfg_attr(not(debug_assertions), inline(always))]
pub fn section_at(
    bytes: &[u8],
    start: usize,
    width: Width,
    byte_order: ByteOrder,
    index: Half,
) -> Result<Section<u64>, UnexpectedEof> {
    match width {
        Width::Bits32 => Ok(sections::section_at::<u32>(
            bytes, start, byte_order, index,
        )?.widened()),
        Width::Bits64 => sections::section_at::<u64>(bytes, start, byte_order, index),
    }
}

/// The sections that a selection's symbols need, found in these section headers, whose names are in `names`. Refused as
/// `functions` of a reader is, up to the string table's type.
pub fn needed_in(
    headers: &[u8],
    width: Width,
    place: HeaderTable,
    names: Option<&[u8]>,
    which: SymbolTable,
    selection: Selection<'_>,
) -> Result<Needed, ParseError> {
    let table = headers_alone(headers, place.byte_order, place.shnum);
    match width {
        Width::Bits32 => needed_of::<u32>(table, names, which, selection),
        Width::Bits64 => needed_of::<u64>(table, names, which, selection),
    }
}

/// The sections of the versions of a symbol table's rows, of their definitions, and of those that are needed of other
/// files.
#[derive(Clone, Copy)]
pub struct VersionSections {
    pub versions: Option<Section<u64>>,
    pub definitions: Option<Section<u64>>,
    pub needs: Option<Section<u64>>,
}

/// Those of this symbol table, found in these section headers. There are none where they aren't whole.
pub fn version_sections(
    headers: &[u8],
    width: Width,
    place: HeaderTable,
    which: SymbolTable,
) -> VersionSections {
    let table = headers_alone(headers, place.byte_order, place.shnum);
    match (which, width) {
        (SymbolTable::Symtab, _) => VersionSections {
            versions: None,
            definitions: None,
            needs: None,
        },
        (SymbolTable::Dynsym, Width::Bits32) => VersionSections {
            versions: widened(whole_section_of_kind::<u32>(table, VERSIONS)),
            definitions: widened(whole_section_of_kind::<u32>(table, DEFINITIONS)),
            needs: widened(whole_section_of_kind::<u32>(table, NEEDS)),
        },
        (SymbolTable::Dynsym, Width::Bits64) => VersionSections {
            versions: whole_section_of_kind::<u64>(table, VERSIONS),
            definitions: whole_section_of_kind::<u64>(table, DEFINITIONS),
            needs: whole_section_of_kind::<u64>(table, NEEDS),
        },
    }
}

fn widened(section: Option<Section<u32>>) -> Option<Section<u64>> {
    Some(section?.widened())
}

/// The sizes in memory of all rows of a symbol table, for a selection of all sections: for one section none. The rows'
/// names are in these strings. The only error is a failed allocation.
pub fn sizes_in(
    alloc: Global,
    headers: &[u8],
    width: Width,
    place: HeaderTable,
    taken: Taken,
    rows: &[u8],
    strings: &[u8],
) -> Result<Vec<u64>, AllocError> {
    if taken.size().is_some() {
        return Ok(Vec::new(alloc));
    }
    let table = headers_alone(headers, place.byte_order, place.shnum);
    let found = Rows { strings, rows };
    let keys = match width {
        Width::Bits32 => keys_of::<u32>(alloc, table, place.kind, found)?,
        Width::Bits64 => keys_of::<u64>(alloc, table, place.kind, found)?,
    };
    sizes_of(
        alloc,
        &keys,
        width,
        place.byte_order,
        place.kind.has_modes(),
        rows,
    )
}

/// An iterator over the sections of a file of either class, in file order, with values of the wider class's types.
#[must_use = "iterators are lazy and do nothing unless consumed"]
#[derive(Clone)]
pub enum AnySections<'a> {
    Narrow(Sections<'a, u32>),
    Wide(Sections<'a, u64>),
}

impl<'a> Iterator for AnySections<'a> {
    type Item = Result<Section<u64>, ParseError>;

    fn next(&mut self) -> Option<Result<Section<u64>, ParseError>> {
        match self {
            AnySections::Narrow(sections) => match sections.next() {
                Some(Ok(section)) => Some(Ok(section.widened())),
                Some(Err(e)) => Some(Err(e)),
                None => None,
            },
            AnySections::Wide(sections) => sections.next(),
        }
    }
}

/// The sections of `count` section headers, in order; `UnexpectedEof` if a header is truncated, or there are no
/// bytes.
pub fn sections_in(
    headers: &[u8],
    width: Width,
    byte_order: ByteOrder,
    count: Half,
) -> AnySections<'_> {
    let table = headers_alone(headers, byte_order, count);
    match width {
        Width::Bits32 => AnySections::Narrow(sections_of::<u32>(table)),
        Width::Bits64 => AnySections::Wide(sections_of::<u64>(table)),
    }
}

/// The sections of a file of this class, in order, and the section names, where the file has them. Nothing is copied.
/// `UnexpectedEof` if the file header is truncated.
pub fn sections_of_file(
    file: &[u8],
    width: Width,
    byte_order: ByteOrder,
) -> Result<(AnySections<'_>, Option<&[u8]>), ParseError> {
    match width {
        Width::Bits32 => {
            let table = table_in::<u32>(file, byte_order)?;
            let left = AnySections::Narrow(sections_of::<u32>(table));
            Ok((left, names_bytes::<u32>(table)))
        }
        Width::Bits64 => {
            let table = table_in::<u64>(file, byte_order)?;
            let left = AnySections::Wide(sections_of::<u64>(table));
            Ok((left, names_bytes::<u64>(table)))
        }
    }
}

fn table_in<C: Class>(file: &[u8], byte_order: ByteOrder) -> Result<Table<'_>, ParseError> {
    let header = parse_header::<C>(file, byte_order)?;
    Ok(section_table(file, byte_order, &header))
}

/// The name among these section names of the section of this index, one of `count` section headers.
#[cfg_attr(not(debug_assertions), inline(always))]
pub fn name_of_index<'a>(
    headers: &[u8],
    names: Option<&'a [u8]>,
    width: Width,
    byte_order: ByteOrder,
    count: Half,
    index: Word,
) -> Option<&'a str> {
    if index >= u32::from(count) {
        return None;
    }
    let start = index as usize * width.section_length();
    match section_at(headers, start, width, byte_order, index as Half) {
        Ok(section) => name_in(names, &section),
        Err(_) => None,
    }
}

/// These section headers alone, as a table that begins at its first byte.
pub fn headers_alone(headers: &[u8], byte_order: ByteOrder, count: Half) -> Table<'_> {
    Table {
        data: headers,
        byte_order,
        shoff: 0,
        shnum: count,
        shstrndx: 0,
    }
}
