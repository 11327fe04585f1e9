// From crates/binfarce_elf/src/symbols.rt, by tools/erase.

//! A symbol table, its strings and its rows: where they are in a file.

use crate::erased::binfarce_elf::class::{Class, Width, Word};
use crate::erased::binfarce_elf::sections::{Section, Table, first_section, section_data};
use crate::erased::binfarce_elf::symbol_table::{STRING_TABLE, SymbolTable};
use crate::erased::binfarce_bytes::ParseError;
use crate::erased::binfarce_bytes::parser::UnexpectedEof;

/// A symbol table's section, and that of its strings.
#[derive(Clone, Copy)]
pub struct TableSections {
    pub symbols: Section<u64>,
    pub strings: Section<u64>,
}

/// The strings and the rows of a symbol table.
#[derive(Clone, Copy)]
pub struct Rows<'a> {
    pub strings: &'a [u8],
    pub rows: &'a [u8],
}

/// The sections of this symbol table, or the first refusal of its search.
pub fn table_sections<C: Class>(
    table: Table<'_>,
    which: SymbolTable,
) -> Result<TableSections, ParseError> {
    let Some(symbols) = section_of_kind::<C>(table, which.section_type())? else {
        return Err(ParseError::SectionIsMissing(which.name()));
    };
    let Some(strings) = section_of_index::<C>(table, symbols.link)? else {
        return Err(ParseError::SectionIsMissing(which.strings_name()));
    };
    if strings.kind != STRING_TABLE {
        return Err(ParseError::UnexpectedSectionType {
            expected: STRING_TABLE,
            actual: strings.kind,
        });
    }
    Ok(TableSections {
        symbols: symbols.widened(),
        strings: strings.widened(),
    })
}

/// The rows and the strings of these sections.
pub fn rows_at(file: &[u8], width: Width, sections: TableSections) -> Result<Rows<'_>, ParseError> {
    let strings = section_data(file, sections.strings)?;
    let rows = section_data(file, sections.symbols)?;
    let rows = whole_rows(width, rows)?;
    Ok(Rows { strings, rows })
}

/// The first section of this type.
pub fn section_of_kind<C: Class>(
    table: Table<'_>,
    kind: Word,
) -> Result<Option<Section<C>>, UnexpectedEof> {
    first_section::<C, _>(table, |section| section.kind == kind)
}

/// The section of this index.
pub fn section_of_index<C: Class>(
    table: Table<'_>,
    index: Word,
) -> Result<Option<Section<C>>, UnexpectedEof> {
    first_section::<C, _>(table, |section| u32::from(section.index) == index)
}

/// The rows of a symbol table of this class, of which none is truncated.
pub fn whole_rows(width: Width, rows: &[u8]) -> Result<&[u8], ParseError> {
    if rows.len() % width.symbol_length() == 0 {
        Ok(rows)
    } else {
        Err(ParseError::UnexpectedEof)
    }
}
