// From crates/binfarce_tables/src/pe.rt, by tools/erase.

//! PE files, of which only the tables are read (Microsoft PE Format).

use crate::shim::Vec;
use crate::erased::binfarce_tables::beginning::Beginning;
use crate::erased::binfarce_tables::error::ReadError;
use crate::erased::binfarce_tables::opened::{Opened, open};
use crate::erased::binfarce_bytes::functions::{SectionFunction, Selection};
use crate::erased::binfarce_bytes::parser::{number_at, to_index};
use crate::erased::binfarce_bytes::source::Source;
use crate::erased::binfarce_bytes::{ByteOrder, ParseError};
use crate::erased::binfarce_pe::functions::{
    SelectedSections, code_of, functions_of, has_functions, section_name,
};
use crate::erased::binfarce_pe::header::image_base;
use crate::erased::binfarce_pe::names::has_long_names;
use crate::erased::binfarce_pe::parts::{
    HEADERS_LENGTH, SECTION_LENGTH, SIGNATURE_POINTER, TableOffsets, Text, places_in, signature_in,
};
use crate::erased::binfarce_pe::sections::Table;
use crate::erased::binfarce_pe::symbols::CoffTable;
use crate::shim::alloc::Global;

// The length of the MS-DOS stub in bytes.
const STUB_LENGTH: u64 = 64;

// How many bytes at the end of the last section header may be missing.
const SECTION_UNREAD: u64 = 16;

// How many bytes at the string table's beginning state its length.
const STRINGS_LENGTH: u64 = 4;

/// The parts of a file that have the function symbols of a selection, in memory.
pub struct Parts {
    sections: Sections,
    records: Records,
}

// The sections, with the image base and their headers, of which none is truncated; the code section, where it alone is
// selected.
struct Sections {
    base: Option<u64>,
    headers: Vec<u8>,
    count: u16,
    code: Option<Text>,
}

impl Parts {
    /// The function symbols that `selected_functions` of a reader of the whole file gives for the selection, in its
    /// order. Nothing is read: names are slices of the parts.
    ///
    /// # Errors
    ///
    /// `OutOfMemory`, only instead of a list that isn't empty.
    pub fn functions(&self, alloc: Global) -> Result<Vec<SectionFunction<'_>>, ParseError> {
        let symbols = CoffTable {
            rows: &self.records.rows,
            strings: &self.records.strings,
        };
        Ok(functions_of(alloc, self.sections.chosen(), symbols)?)
    }

    /// Whether `functions` gives a function symbol. Nothing is allocated, and nothing is sorted.
    pub fn has_functions(&self) -> bool {
        let symbols = CoffTable {
            rows: &self.records.rows,
            strings: &self.records.strings,
        };
        has_functions(self.sections.chosen(), symbols)
    }

    /// The size in bytes of the code section in memory; `None` if all sections are selected.
    pub fn section_size(&self) -> Option<u64> {
        self.sections.chosen().section_size()
    }

    /// The name of the section of this number, which is one more than its index; one of more than 8 bytes is taken from
    /// the string table, where it is there. It is a slice of the parts; nothing is copied. `None` if there is no such
    /// section, and where its stored name isn't UTF-8.
    pub fn section_name(&self, number: u32) -> Option<&str> {
        section_name(self.sections.headers(), &self.records.strings, number)
    }

    /// Whether the selected sections share addresses: all sections of a file without an image base, as an object file.
    pub fn shares_addresses(&self) -> bool {
        self.sections.base.is_none() && self.sections.code.is_none()
    }
}

impl Sections {
    fn chosen(&self) -> SelectedSections<'_> {
        SelectedSections::Memory(self.base, self.headers(), self.code)
    }

    fn headers(&self) -> Table<'_> {
        table_of(&self.headers, self.count)
    }
}

// So many section headers alone.
fn table_of(headers: &[u8], count: u16) -> Table<'_> {
    Table {
        bytes: headers,
        offset: 0,
        count,
    }
}

/// Reads the parts of a file that a selection's function symbols need: the offset of the signature, the signature and
/// the file header, which are 24 bytes, up to 32 bytes of the optional header, the section headers, the symbol table,
/// and the strings, which are all that follows it. Each is read once, into memory of its size, which is never more than
/// the file has of it. No other byte is read. The signature isn't checked.
///
/// # Errors
///
/// `Refused` with the error of `parse` or `selected_functions` of a reader of the whole file; `Unreadable` if the source
/// can't be read at offsets, or a read of it fails, and never for a source that can't fail, such as bytes in memory;
/// `OutOfMemory` if an allocation fails.
pub fn read<S: Source>(
    alloc: Global,
    source: &S,
    log: &mut S::Log,
    selection: Selection<'_>,
) -> Result<Parts, ReadError> {
    let opened = open(alloc, source)?;
    let places = read_places(&opened, log)?;
    let sections = read_selected(&opened, log, places, selection)?;
    let records = read_records(&opened, log, places)?;
    Ok(Parts { sections, records })
}

// The selected sections of a file whose tables are at these places.
fn read_selected<S: Source>(
    opened: &Opened<'_, S>,
    log: &mut S::Log,
    places: TableOffsets,
    selection: Selection<'_>,
) -> Result<Sections, ReadError> {
    let count = places.section_count;
    let headers = read_headers(opened, log, places)?;
    let code = code_of(table_of(&headers, count), selection)?;
    let size = places.optional_header_size as u64;
    let header = opened.part(log, places.optional_header, size)?;
    Ok(Sections {
        base: image_base(&header),
        headers,
        count,
        code,
    })
}

/// The parts of a file that have its sections, and their names.
pub struct SectionParts {
    /// The file's first bytes, up to the end of the section headers.
    pub beginning: Beginning,
    /// The string table, if the name of a section is in it; else nothing.
    pub strings: Vec<u8>,
}

/// Reads the parts of a file that have its sections: the prefix up to the end of the section headers, or if there are
/// none up to the end of the first byte after the file header; and if the name of a section is in the string table,
/// this table, after its length, which is 4 bytes. Each takes no more memory than the file has of it. The signature isn't
/// checked.
///
/// # Errors
///
/// `Refused` with `UnexpectedEof` if the file is too short for its file header; `Unreadable` if the source can't
/// be read at offsets, or a read of it fails, and never for a source that can't fail, such as bytes in memory;
/// `OutOfMemory` if an allocation fails.
pub fn read_sections<S: Source>(
    alloc: Global,
    source: &S,
    log: &mut S::Log,
) -> Result<SectionParts, ReadError> {
    let opened = open(alloc, source)?;
    let places = read_places(&opened, log)?;
    let beginning = read_beginning(&opened, log, places)?;
    let strings = read_strings(&opened, log, places, beginning.bytes())?;
    Ok(SectionParts { beginning, strings })
}

// The beginning of a file whose tables are at these places, up to the end of the section headers.
fn read_beginning<S: Source>(
    opened: &Opened<'_, S>,
    log: &mut S::Log,
    places: TableOffsets,
) -> Result<Beginning, ReadError> {
    let headers = places.section_count as u64 * SECTION_LENGTH as u64;
    let end = places
        .sections
        .saturating_add(headers.max(1))
        .max(STUB_LENGTH);
    let file_length = opened.len;
    let bytes = opened.part(log, 0, end.min(file_length))?;
    Ok(Beginning { bytes, file_length })
}

// The string table of a file that begins with these bytes, if the name of a section is in it; else nothing.
fn read_strings<S: Source>(
    opened: &Opened<'_, S>,
    log: &mut S::Log,
    places: TableOffsets,
    beginning: &[u8],
) -> Result<Vec<u8>, ReadError> {
    let table = Table {
        bytes: beginning,
        offset: to_index(places.sections),
        count: places.section_count,
    };
    if !has_long_names(table) {
        return Ok(Vec::new(opened.alloc));
    }
    match strings_at(opened.len, places) {
        None => Ok(Vec::new(opened.alloc)),
        Some(offset) => read_string_table(opened, log, offset),
    }
}

// Where the string table begins in a file of this length, if it has one.
fn strings_at(len: u64, places: TableOffsets) -> Option<u64> {
    let offset = places.symbols.saturating_add(places.symbols_size);
    if offset > 0 && len >= STRINGS_LENGTH && offset <= len - STRINGS_LENGTH {
        Some(offset)
    } else {
        None
    }
}

// The string table that begins at this offset: as many bytes as its first 4 state, or up to the file's end.
fn read_string_table<S: Source>(
    opened: &Opened<'_, S>,
    log: &mut S::Log,
    offset: u64,
) -> Result<Vec<u8>, ReadError> {
    let head = opened.part(log, offset, STRINGS_LENGTH)?;
    let size: u32 = number_at(&head, 0, ByteOrder::LittleEndian).unwrap();
    let rest = opened.len.saturating_sub(offset);
    opened.part(log, offset, u64::from(size).min(rest))
}

/// Where the file is loaded unless the loader chooses another address: its image base (`ImageBase`). `None` without one,
/// as in an object file. The offset of the signature, the signature and the file header, which are 24 bytes, and up to
/// 32 bytes of the optional header are read, and no other byte. The signature isn't checked.
///
/// # Errors
///
/// `Refused` with `UnexpectedEof` if the file is too short for its file header, or for these bytes of the optional
/// header; `Unreadable` if the source can't be read at offsets, or a read of it fails, and never for a source that
/// can't fail, such as bytes in memory; `OutOfMemory` if an allocation fails.
pub fn read_load_address<S: Source>(
    alloc: Global,
    source: &S,
    log: &mut S::Log,
) -> Result<Option<u64>, ReadError> {
    let opened = open(alloc, source)?;
    let places = read_places(&opened, log)?;
    read_base(&opened, log, places)
}

/// Whether the file has a symbol table: where its file header counts symbols (`NumberOfSymbols`), which that of a
/// stripped file doesn't. The offset of the signature, the signature and the file header, which are 24 bytes, are read,
/// and no other byte. The signature isn't checked.
///
/// # Errors
///
/// `Refused` with `UnexpectedEof` if the file is too short for its file header; `Unreadable` if the source can't
/// be read at offsets, or a read of it fails, and never for a source that can't fail, such as bytes in memory;
/// `OutOfMemory` if an allocation fails.
pub fn has_symbols<S: Source>(
    alloc: Global,
    source: &S,
    log: &mut S::Log,
) -> Result<bool, ReadError> {
    let opened = open(alloc, source)?;
    let places = read_places(&opened, log)?;
    Ok(places.symbols_size > 0)
}

// The image base, in the optional header's first bytes.
fn read_base<S: Source>(
    opened: &Opened<'_, S>,
    log: &mut S::Log,
    places: TableOffsets,
) -> Result<Option<u64>, ReadError> {
    let offset = places.optional_header;
    let size = places.optional_header_size as u64;
    let header = opened.within(log, offset, size)?;
    Ok(image_base(&header))
}

// The places that the file header states.
fn read_places<S: Source>(
    opened: &Opened<'_, S>,
    log: &mut S::Log,
) -> Result<TableOffsets, ReadError> {
    let signature = read_signature(opened, log)?;
    let offset = signature as u64;
    let headers = opened.within(log, offset, HEADERS_LENGTH)?;
    Ok(places_in(&headers, signature)?)
}

fn read_signature<S: Source>(opened: &Opened<'_, S>, log: &mut S::Log) -> Result<u32, ReadError> {
    let pointer = opened.within(log, SIGNATURE_POINTER as u64, 4)?;
    Ok(signature_in(&pointer)?)
}

// The section headers, of which none is truncated.
fn read_headers<S: Source>(
    opened: &Opened<'_, S>,
    log: &mut S::Log,
    places: TableOffsets,
) -> Result<Vec<u8>, ReadError> {
    let offset = places.sections;
    if offset >= opened.len {
        return Err(ReadError::Refused(ParseError::UnexpectedEof));
    }
    let rest = opened.len - offset;
    let size = places.section_count as u64 * SECTION_LENGTH as u64;
    if size.saturating_sub(SECTION_UNREAD) > rest {
        return Err(ReadError::Refused(ParseError::UnexpectedEof));
    }
    opened.part(log, offset, size.min(rest))
}

// The records of the symbol table, and the strings, which follow them.
struct Records {
    rows: Vec<u8>,
    strings: Vec<u8>,
}

// The symbol table and its strings.
fn read_records<S: Source>(
    opened: &Opened<'_, S>,
    log: &mut S::Log,
    places: TableOffsets,
) -> Result<Records, ReadError> {
    let offset = places.symbols;
    if offset >= opened.len {
        return Err(ReadError::Refused(ParseError::UnexpectedEof));
    }
    let rows = opened.within(log, offset, places.symbols_size)?;
    let end = offset + places.symbols_size;
    let strings = opened.part(log, end, opened.len - end)?;
    Ok(Records { rows, strings })
}
