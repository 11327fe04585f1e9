// From crates/binfarce_pe/src/symbols.rt, by tools/erase.

//! The symbol table ("COFF Symbol Table") and its rows.

use crate::shim::to_usize;
use crate::erased::binfarce_pe::parts::TableOffsets;
use crate::erased::binfarce_pe::sections::short_name;
use crate::erased::binfarce_bytes::parser::{
    Stream, UnexpectedEof, parse_null_string, slice_at, to_index,
};
use crate::erased::binfarce_bytes::{ByteOrder, ParseError};

pub(crate) const SYMBOL_LENGTH: usize = 18;

const IMAGE_SYM_DTYPE_SHIFT: u16 = 4;

const IMAGE_SYM_DTYPE_FUNCTION: u16 = 2;

/// The records of a symbol table, and the bytes from the string table on, which comes after them.
#[derive(Clone, Copy)]
pub struct CoffTable<'a> {
    pub rows: &'a [u8],
    pub strings: &'a [u8],
}

/// The numbers of a symbol record. A short name is stored in place of the first two.
#[derive(Clone, Copy)]
pub(crate) struct SymbolRow {
    zeroes: u32,
    offset: u32,
    pub(crate) value: u32,
    pub(crate) section_number: u16,
    pub(crate) kind: u16,
    pub(crate) storage_class: u8,
    pub(crate) number_of_aux_symbols: u8,
}

pub(crate) fn symbol_table<'a>(
    file: &'a [u8],
    places: TableOffsets,
) -> Result<CoffTable<'a>, ParseError> {
    let offset = places.symbols;
    if offset >= file.len() as u64 {
        return Err(ParseError::UnexpectedEof);
    }
    let rows = slice_at(file, to_index(offset), to_index(places.symbols_size))?;
    let strings = &file[to_index(offset + places.symbols_size)..];
    Ok(CoffTable { rows, strings })
}

#[inline]
pub(crate) fn is_function(row: SymbolRow) -> bool {
    row.kind >> IMAGE_SYM_DTYPE_SHIFT == IMAGE_SYM_DTYPE_FUNCTION
}

// A row's name: its own 8 bytes, or the text in the string table.
pub(crate) fn name_of<'a>(table: CoffTable<'a>, number: usize, row: SymbolRow) -> Option<&'a str> {
    if row.zeroes == 0 {
        parse_null_string(table.strings, to_usize(row.offset))
    } else {
        let start = number * SYMBOL_LENGTH;
        short_name(&table.rows[start..start + 8])
    }
}

pub(crate) fn symbol_of(table: CoffTable<'_>, number: usize) -> SymbolRow {
    symbol_at(table.rows, number * SYMBOL_LENGTH).unwrap()
}

// The record that begins at `start`; refused if it is truncated.
#[inline]
fn symbol_at(rows: &[u8], start: usize) -> Result<SymbolRow, UnexpectedEof> {
    let mut s = Stream::new_at(rows, start, ByteOrder::LittleEndian)?;
    Ok(SymbolRow {
        zeroes: s.read()?,
        offset: s.read()?,
        value: s.read()?,
        section_number: s.read()?,
        kind: s.read()?,
        storage_class: s.read()?,
        number_of_aux_symbols: s.read()?,
    })
}
