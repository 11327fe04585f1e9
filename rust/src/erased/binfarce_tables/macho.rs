// From crates/binfarce_tables/src/macho.rt, by tools/erase.

//! 64-bit Mach-O files, of which only the tables are read (Apple's `<mach-o/loader.h>` and `<mach-o/nlist.h>`).

use crate::shim::Vec;
use crate::erased::binfarce_tables::beginning::Beginning;
use crate::erased::binfarce_tables::error::ReadError;
use crate::erased::binfarce_tables::opened::{Opened, open};
use crate::erased::binfarce_bytes::ParseError;
use crate::erased::binfarce_bytes::functions::{SectionFunction, Selection};
use crate::erased::binfarce_bytes::source::Source;
use crate::erased::binfarce_macho::functions::{functions_of, has_functions};
use crate::erased::binfarce_macho::header::{MachoHeader, parse_header};
use crate::erased::binfarce_macho::numbered::{SelectedSections, selected_sections};
use crate::erased::binfarce_macho::parts::{commands_end, holds_commands, load_address};
use crate::erased::binfarce_macho::symbols::{
    SYMBOL_LENGTH, SymbolBytes, SymtabCommand, symbol_table,
};
use crate::shim::alloc::Global;

// The number of the header's bytes that are read.
const HEADER: u64 = 28;

/// The parts of a file that have the function symbols of a selection, in memory.
pub struct Parts {
    sections: SelectedSections,
    symbols: Option<SymbolParts>,
}

// The string table and the symbol table.
struct SymbolParts {
    strings: Vec<u8>,
    rows: Vec<u8>,
}

impl Parts {
    /// The function symbols that `selected_functions` of a reader of the whole file gives for the selection, in its
    /// order. Nothing is read: names are slices of the parts.
    ///
    /// # Errors
    ///
    /// `OutOfMemory`, only if the file has a section.
    pub fn functions(&self, alloc: Global) -> Result<Vec<SectionFunction<'_>>, ParseError> {
        functions_of(alloc, &self.sections, symbols_in(&self.symbols))
    }

    /// Whether `functions` gives a function symbol. Nothing is allocated, and nothing is sorted.
    pub fn has_functions(&self) -> bool {
        has_functions(&self.sections, symbols_in(&self.symbols))
    }

    /// The size in bytes of the code section; `None` if all sections are selected.
    pub fn section_size(&self) -> Option<u64> {
        self.sections.size()
    }

    /// The name of the section of this number, `SEGMENT,SECTION`; nothing is copied. `None` if there is no such
    /// section, and where one of its two names isn't valid.
    pub fn section_name(&self, number: u32) -> Option<&str> {
        self.sections.name(number)
    }
}

fn symbols_in(symbols: &Option<SymbolParts>) -> Option<SymbolBytes<'_>> {
    symbols.as_ref().map(bytes_of)
}

fn bytes_of(symbols: &SymbolParts) -> SymbolBytes<'_> {
    SymbolBytes {
        strings: &symbols.strings,
        rows: &symbols.rows,
    }
}

/// Reads the parts of a file that a selection's function symbols need: the header of 28 bytes, the file's first bytes
/// up to the end of the load commands that the header states (`sizeofcmds`), the string table and the symbol table.
/// Each is read into memory of its size, which is never more than the file has of it. No other byte is read, unless the
/// commands, or the sections of a segment command, extend past that end: then the whole file is read for them. The
/// magic number isn't checked.
///
/// # Errors
///
/// `Refused` with the error of `parse`, or of `selected_functions` of a reader of the whole file; `Unreadable` if the source can't be read at offsets, or a
/// read of it fails, and never for a source that can't fail, such as bytes in memory; `OutOfMemory` if an allocation
/// fails.
pub fn read<S: Source>(
    alloc: Global,
    source: &S,
    log: &mut S::Log,
    selection: Selection<'_>,
) -> Result<Parts, ReadError> {
    let opened = open(alloc, source)?;
    let commands = read_commands(&opened, log)?;
    let found = found_in(alloc, &commands, selection)?;
    let symbols = read_symbols(&opened, log, found.table)?;
    Ok(Parts {
        sections: found.sections,
        symbols,
    })
}

// The content of the load commands: the selected sections, and where the symbol table is.
struct Found {
    sections: SelectedSections,
    table: Option<SymtabCommand>,
}

// What the load commands say, which these bytes of the file hold.
fn found_in(alloc: Global, commands: &[u8], selection: Selection<'_>) -> Result<Found, ReadError> {
    let header = header_in(commands)?;
    let sections = match selected_sections(alloc, commands, header, selection) {
        Ok(sections) => sections,
        Err(e) => return Err(error_of(e)),
    };
    let table = symbol_table(commands, header)?;
    Ok(Found { sections, table })
}

// A failed allocation is returned as such, and any other error as a refusal.
fn error_of(e: ParseError) -> ReadError {
    match e {
        ParseError::OutOfMemory => ReadError::OutOfMemory,
        e => ReadError::Refused(e),
    }
}

// The string table and the symbol table, if there is one.
fn read_symbols<S: Source>(
    opened: &Opened<'_, S>,
    log: &mut S::Log,
    table: Option<SymtabCommand>,
) -> Result<Option<SymbolParts>, ReadError> {
    let table = match table {
        None => return Ok(None),
        Some(table) => table,
    };
    let strings_at = table.strings_offset as u64;
    let strings_size = table.strings_size as u64;
    let strings = opened.within(log, strings_at, strings_size)?;
    let rows_at = table.symbol_offset as u64;
    let rows_size = SYMBOL_LENGTH as u64 * table.row_count as u64;
    let rows = opened.within(log, rows_at, rows_size)?;
    Ok(Some(SymbolParts { strings, rows }))
}

/// Reads the prefix of a file that has its sections: the header of 28 bytes, and the bytes up to the end of the load
/// commands that the header states (`sizeofcmds`). Where the commands, or the sections of a segment command, extend
/// past that end, it reads the whole file. It takes no more memory than the file has bytes. The magic number isn't
/// checked.
///
/// # Errors
///
/// `Refused` with `UnexpectedEof` for fewer than 28 bytes; `Unreadable` if the source can't be read at offsets, or a
/// read of it fails, and never for a source that can't fail, such as bytes in memory; `OutOfMemory` if an allocation
/// fails.
pub fn read_sections<S: Source>(
    alloc: Global,
    source: &S,
    log: &mut S::Log,
) -> Result<Beginning, ReadError> {
    let opened = open(alloc, source)?;
    let bytes = read_commands(&opened, log)?;
    Ok(Beginning {
        bytes,
        file_length: opened.len,
    })
}

/// Where the file is loaded unless the loader slides it: the address of its first segment `__TEXT`. `None` without one,
/// as in an object file. It reads what `read_sections` reads. The magic number isn't checked.
///
/// # Errors
///
/// `Refused` with `UnexpectedEof` for fewer than 28 bytes, and with `MalformedInput` for a bad load command before that
/// segment; `Unreadable` if the source can't be read at offsets, or a read of it fails, and never for a source that
/// can't fail, such as bytes in memory; `OutOfMemory` if an allocation fails.
pub fn read_load_address<S: Source>(
    alloc: Global,
    source: &S,
    log: &mut S::Log,
) -> Result<Option<u64>, ReadError> {
    let opened = open(alloc, source)?;
    let commands = read_commands(&opened, log)?;
    address_in(&commands)
}

// Where the file is loaded, of which these bytes hold the load commands.
fn address_in(commands: &[u8]) -> Result<Option<u64>, ReadError> {
    let header = header_in(commands)?;
    Ok(load_address(commands, header)?)
}

// The prefix of the file that has the load commands; refused if the file is too short for its header.
fn read_commands<S: Source>(opened: &Opened<'_, S>, log: &mut S::Log) -> Result<Vec<u8>, ReadError> {
    let end = read_end(opened, log)?;
    let commands = opened.part(log, 0, end)?;
    if end == opened.len || are_held(&commands) {
        Ok(commands)
    } else {
        opened.part(log, 0, opened.len)
    }
}

// Where the load commands end, as the header states, but within the file.
fn read_end<S: Source>(opened: &Opened<'_, S>, log: &mut S::Log) -> Result<u64, ReadError> {
    let bytes = opened.within(log, 0, HEADER)?;
    let header = header_in(&bytes)?;
    Ok(commands_end(header).min(opened.len))
}

// The header in a file's first bytes; refused if it is truncated.
fn header_in(bytes: &[u8]) -> Result<MachoHeader, ParseError> {
    Ok(parse_header(bytes)?)
}

fn are_held(commands: &[u8]) -> bool {
    match parse_header(commands) {
        Ok(header) => holds_commands(commands, header),
        Err(_) => false,
    }
}
