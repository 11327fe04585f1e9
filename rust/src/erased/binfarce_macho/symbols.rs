// From crates/binfarce_macho/src/symbols.rt, by tools/erase.

//! The text, and the symbol table (Apple's `<mach-o/nlist.h>`).

use crate::shim::to_usize;
use crate::erased::binfarce_macho::commands::{Command, LC_SYMTAB, commands};
use crate::erased::binfarce_macho::header::MachoHeader;
use crate::erased::binfarce_macho::sections::{Section, section_with_name};
use crate::erased::binfarce_bytes::parser::{Stream, UnexpectedEof, slice_at, to_index};
use crate::erased::binfarce_bytes::{ByteOrder, ParseError};

/// The length of a row of the symbol table in bytes.
pub const SYMBOL_LENGTH: usize = 16;

/// A section's memory range: the address of its first byte, and its size in bytes.
#[derive(Clone, Copy)]
pub struct Extent {
    pub address: u64,
    pub size: u64,
}

/// The bytes of a string table, and of a symbol table's rows.
#[derive(Clone, Copy)]
pub struct SymbolBytes<'a> {
    pub strings: &'a [u8],
    pub rows: &'a [u8],
}

/// The memory range of the text (`__TEXT,__text`) of a file with this header. Refused as `functions` of a reader is,
/// up to there, and so where it is missing or empty.
pub(crate) fn text_extent(file: &[u8], header: MachoHeader) -> Result<Extent, ParseError> {
    let found = text_section(file, header)?;
    let text = some_size(found)?;
    Ok(Extent {
        address: text.address,
        size: text.size,
    })
}

fn text_section(file: &[u8], header: MachoHeader) -> Result<Section<'_>, ParseError> {
    section_with_name(file, header, "__TEXT", "__text")?.ok_or(ParseError::SymbolsSectionIsMissing)
}

/// The tables that the first `LC_SYMTAB` command of a file with this header names; `None` without one. Refused as
/// `functions` of a reader is, up to there.
pub fn symbol_table(file: &[u8], header: MachoHeader) -> Result<Option<SymtabCommand>, ParseError> {
    let command = symbol_command(file, header)?;
    named_table(file, command)
}

fn named_table(bytes: &[u8], command: Option<Command>) -> Result<Option<SymtabCommand>, ParseError> {
    match command {
        None => Ok(None),
        Some(command) => Ok(Some(symbol_table_at(bytes, command)?)),
    }
}

/// The string table and the rows that a symbol table's command names, slices of the file; `None` without one. Refused
/// where they don't lie in the file.
pub fn symbols_by(
    file: &[u8],
    table: Option<SymtabCommand>,
) -> Result<Option<SymbolBytes<'_>>, ParseError> {
    match table {
        None => Ok(None),
        Some(table) => {
            let strings_size = to_usize(table.strings_size);
            let strings = slice_at(file, to_usize(table.strings_offset), strings_size)?;
            let rows_size = SYMBOL_LENGTH as u64 * u64::from(table.row_count);
            let rows = slice_at(file, to_usize(table.symbol_offset), to_index(rows_size))?;
            Ok(Some(SymbolBytes { strings, rows }))
        }
    }
}

// The first command that names a symbol table.
fn symbol_command(file: &[u8], header: MachoHeader) -> Result<Option<Command>, ParseError> {
    for item in commands(file, header) {
        let command = item?;
        if command.kind == LC_SYMTAB {
            return Ok(Some(command));
        }
    }
    Ok(None)
}

fn some_size(section: Section<'_>) -> Result<Section<'_>, ParseError> {
    if section.size == 0 {
        Err(ParseError::MalformedInput)
    } else {
        Ok(section)
    }
}

/// The body of a symbol table's command (`symtab_command`): the offset and the number of rows of the symbol table, and
/// the offset and the size in bytes of the string table.
#[derive(Clone, Copy)]
pub struct SymtabCommand {
    pub symbol_offset: u32,
    pub row_count: u32,
    pub strings_offset: u32,
    pub strings_size: u32,
}

fn symbol_table_at(bytes: &[u8], command: Command) -> Result<SymtabCommand, UnexpectedEof> {
    let body = command.offset.checked_add(8).ok_or(UnexpectedEof {})?;
    let mut s = Stream::new_at(bytes, body, ByteOrder::LittleEndian)?;
    let symbol_offset = s.read()?;
    let row_count = s.read()?;
    let strings_offset = s.read()?;
    let strings_size = s.read()?;
    Ok(SymtabCommand {
        symbol_offset,
        row_count,
        strings_offset,
        strings_size,
    })
}

/// A symbol table entry's values (`nlist_64`).
#[derive(Clone, Copy)]
pub(crate) struct SymbolRow {
    pub(crate) name: u32,
    pub(crate) kind: u8,
    pub(crate) section: u8,
    pub(crate) value: u64,
}

#[inline]
pub(crate) fn symbol_at(rows: &[u8], start: usize) -> Result<SymbolRow, UnexpectedEof> {
    let mut s = Stream::new_at(rows, start, ByteOrder::LittleEndian)?;
    let name = s.read()?;
    let kind = s.read()?;
    let section = s.read()?;
    s.skip::<u16>()?; // description
    let value = s.read()?;
    Ok(SymbolRow {
        name,
        kind,
        section,
        value,
    })
}
