// From crates/binfarce_pe/src/functions.rt, by tools/erase.

//! The function symbols of selected sections at their addresses in memory, and those of the text by the rule of
//! `functions` of a reader.

use crate::shim::{Vec, to_usize};
use crate::erased::binfarce_pe::header::image_base;
use crate::erased::binfarce_pe::names::{full_name, string_table};
use crate::erased::binfarce_pe::parts::{SECTION_LENGTH, TableOffsets, Text, text_in};
use crate::erased::binfarce_pe::sections::{
    Section, Table, section_at, section_named, section_table,
};
use crate::erased::binfarce_pe::symbols::{
    CoffTable, SYMBOL_LENGTH, SymbolRow, is_function, name_of, symbol_of, symbol_table,
};
use crate::erased::binfarce_bytes::functions::{FunctionSymbol, SectionFunction, Selection};
use crate::erased::binfarce_bytes::parser::{number_at, slice_at, to_index};
use crate::erased::binfarce_bytes::sizes::{RowAddress, arrange};
use crate::erased::binfarce_bytes::{ByteOrder, ParseError};
use crate::shim::alloc::{AllocError, Global};
use core::mem;

const IMAGE_SYM_CLASS_EXTERNAL: u8 = 2;

const IMAGE_SYM_CLASS_STATIC: u8 = 3;

const IMAGE_SYM_CLASS_LABEL: u8 = 6;

/// The sections of a file whose function symbols are listed.
#[derive(Clone, Copy)]
pub enum SelectedSections<'a> {
    /// The text, by the rule of `functions` of a reader: external functions, at their offsets in it.
    Text(Text),
    /// The sections of a file with this image base, with these headers: external and static functions, at their
    /// addresses in memory. All are selected, or the code section alone, which has this index and size.
    Memory(Option<u64>, Table<'a>, Option<Text>),
}

impl SelectedSections<'_> {
    /// The size in bytes of the section that is selected: of the text in the file, of the code section in memory. `None`
    /// for all sections.
    pub fn section_size(self) -> Option<u64> {
        match self {
            SelectedSections::Text(text) => Some(u64::from(text.size)),
            SelectedSections::Memory(_, _, None) => None,
            SelectedSections::Memory(_, _, Some(code)) => Some(u64::from(code.size)),
        }
    }
}

/// The function symbols of a selection in a file whose tables are at these places, and the size of the selected
/// section: the answer of `selected_functions` of a reader, with its refusals. `OutOfMemory` only instead of a list that
/// isn't empty.
pub fn functions_of_file<'a>(
    alloc: Global,
    file: &'a [u8],
    places: TableOffsets,
    selection: Selection<'_>,
) -> Result<(Vec<SectionFunction<'a>>, Option<u64>), ParseError> {
    let sections = selected_sections(file, places, selection)?;
    let symbols = symbol_table(file, places)?;
    let functions = functions_of(alloc, sections, symbols)?;
    Ok((functions, sections.section_size()))
}

/// The function symbols of the text of a file whose tables are at these places, and the text's size in bytes in the
/// file: those of `functions` of a reader, with its refusals. `OutOfMemory` only instead of a list that isn't empty.
pub fn text_functions<'a>(
    alloc: Global,
    file: &'a [u8],
    places: TableOffsets,
) -> Result<(Vec<SectionFunction<'a>>, u64), ParseError> {
    let text = text_in(section_table(file, places))?;
    let symbols = symbol_table(file, places)?;
    let functions = functions_of(alloc, SelectedSections::Text(text), symbols)?;
    Ok((functions, u64::from(text.size)))
}

// The sections of a file, none of whose headers is truncated, of which this selection takes all or the code section.
fn selected_sections<'a>(
    file: &'a [u8],
    places: TableOffsets,
    selection: Selection<'_>,
) -> Result<SelectedSections<'a>, ParseError> {
    let optional_header = to_index(places.optional_header);
    let header = slice_at(file, optional_header, places.optional_header_size)?;
    let headers = whole_sections(section_table(file, places))?;
    let code = code_of(headers, selection)?;
    Ok(SelectedSections::Memory(image_base(header), headers, code))
}

// The section headers, of which none is truncated.
fn whole_sections(sections: Table<'_>) -> Result<Table<'_>, ParseError> {
    let room = (sections.bytes.len() + 16).saturating_sub(sections.offset) / SECTION_LENGTH;
    if sections.offset < sections.bytes.len() && to_usize(sections.count) <= room {
        Ok(sections)
    } else {
        Err(ParseError::UnexpectedEof)
    }
}

/// The index and the size in bytes of the code section among section headers of which none is truncated, if the
/// selection is of one section. `SymbolsSectionIsMissing` if it is missing.
pub fn code_of(sections: Table<'_>, selection: Selection<'_>) -> Result<Option<Text>, ParseError> {
    match selection {
        Selection::All => Ok(None),
        Selection::Section(_) => match code_section(sections) {
            None => Err(ParseError::SymbolsSectionIsMissing),
            Some(code) => {
                let size = memory_size(sections, u32::from(code.index));
                Ok(Some(Text {
                    index: code.index,
                    size,
                }))
            }
        },
    }
}

// The first section `.text`.
fn code_section(sections: Table<'_>) -> Option<Section<'_>> {
    match section_named(sections, ".text") {
        Ok(found) => found,
        Err(_) => None,
    }
}

/// The name of the section of this number, if there is one and its stored name is UTF-8: a part of the headers, or
/// of the strings, which are the bytes from the string table's beginning on.
pub fn section_name<'a>(sections: Table<'a>, strings: &'a [u8], number: u32) -> Option<&'a str> {
    let index = number.checked_sub(1)?;
    if index >= u32::from(sections.count) {
        return None;
    }
    let start = sections.offset + index as usize * SECTION_LENGTH;
    match section_at(sections.bytes, start, index as u16).unwrap() {
        None => None,
        Some(section) => Some(full_name(string_table(strings), section.name)),
    }
}

/// The function symbols of selected sections in a symbol table: by section, and in each by the row's value and at equal
/// values in table order. The only error is a failed allocation, and only instead of a list that isn't empty.
pub fn functions_of<'a>(
    alloc: Global,
    sections: SelectedSections<'_>,
    symbols: CoffTable<'a>,
) -> Result<Vec<SectionFunction<'a>>, AllocError> {
    let mut functions = Vec::new(alloc);
    if !has_functions(sections, symbols) {
        return Ok(functions);
    }
    let mut held = rows_by_section(alloc, sections, symbols)?;
    let (first, count) = span_of(sections);
    for at in 0..count {
        let rows = mem::replace(&mut held[to_usize(at)], no_rows(alloc));
        push_functions(alloc, &mut functions, sections, first + at, rows)?;
    }
    Ok(functions)
}

// The index of the first selected section, and how many there are from it on.
fn span_of(sections: SelectedSections<'_>) -> (u32, u32) {
    match sections {
        SelectedSections::Text(text) => (u32::from(text.index), 1),
        SelectedSections::Memory(_, headers, None) => (0, u32::from(headers.count)),
        SelectedSections::Memory(_, _, Some(code)) => (u32::from(code.index), 1),
    }
}

// Whether a row is a function that is kept of the section that it names, if that is selected and its name can be read.
fn accepts(sections: SelectedSections<'_>, row: SymbolRow) -> bool {
    let is_kept = match sections {
        SelectedSections::Text(_) => row.storage_class == IMAGE_SYM_CLASS_EXTERNAL,
        SelectedSections::Memory(_, _, _) => is_external_or_static(row),
    };
    is_function(row) && is_kept
}

// Whether a row ends sizes in the section that it names, if that is selected, even where it isn't kept.
fn ends_sizes(
    sections: SelectedSections<'_>,
    symbols: CoffTable<'_>,
    number: usize,
    row: SymbolRow,
) -> bool {
    match sections {
        SelectedSections::Text(_) => false,
        SelectedSections::Memory(_, _, _) => {
            is_external_or_static(row) || is_routine(symbols, number, row)
        }
    }
}

// Whether a row is the label of a routine, and not of a place within a function. Where its name can't be read it is.
fn is_routine(symbols: CoffTable<'_>, number: usize, row: SymbolRow) -> bool {
    if row.storage_class != IMAGE_SYM_CLASS_LABEL {
        return false;
    }
    match name_of(symbols, number, row) {
        None => true,
        Some(name) => !is_inner(name),
    }
}

// Whether a name is one that compilers and assemblers give to labels within functions.
fn is_inner(name: &str) -> bool {
    let name = name.as_bytes();
    name.starts_with(b".") || name.starts_with(b"L") || name.starts_with(b"$")
}

// Whether a row's value is the offset of a symbol in its section, and no label's.
fn is_external_or_static(row: SymbolRow) -> bool {
    let class = row.storage_class;
    class == IMAGE_SYM_CLASS_EXTERNAL || class == IMAGE_SYM_CLASS_STATIC
}

// The position among the selected sections of the one that a row names.
fn position_of(sections: SelectedSections<'_>, row: SymbolRow) -> Option<u32> {
    let (first, count) = span_of(sections);
    let number = u32::from(row.section_number);
    if first < number && number - first <= count {
        Some(number - first - 1)
    } else {
        None
    }
}

// The position among the selected sections of the one in which a row ends sizes, and the row's name where it is kept.
fn ending_of<'a>(
    sections: SelectedSections<'_>,
    symbols: CoffTable<'a>,
    number: usize,
    row: SymbolRow,
) -> Option<(u32, Option<&'a str>)> {
    let at = match position_of(sections, row) {
        None => return None,
        Some(at) => at,
    };
    match function_name(sections, symbols, number, row) {
        Some(name) => Some((at, Some(name))),
        None => {
            if ends_sizes(sections, symbols, number, row) {
                Some((at, None))
            } else {
                None
            }
        }
    }
}

// The position among the selected sections of the one that a row is kept of.
fn kept_in(
    sections: SelectedSections<'_>,
    symbols: CoffTable<'_>,
    number: usize,
    row: SymbolRow,
) -> Option<u32> {
    let at = match position_of(sections, row) {
        None => return None,
        Some(at) => at,
    };
    match function_name(sections, symbols, number, row) {
        None => None,
        Some(_) => Some(at),
    }
}

// The name of a row that is kept of the section that it names, if that is selected.
fn function_name<'a>(
    sections: SelectedSections<'_>,
    symbols: CoffTable<'a>,
    number: usize,
    row: SymbolRow,
) -> Option<&'a str> {
    if accepts(sections, row) {
        name_of(symbols, number, row)
    } else {
        None
    }
}

// The size that sizes end at in the section of this index.
fn bound_of(sections: SelectedSections<'_>, index: u32) -> u32 {
    match sections {
        SelectedSections::Text(text) => text.size,
        SelectedSections::Memory(_, headers, _) => memory_size(headers, index),
    }
}

// How many bytes the section of this index has in memory, or in an object.
fn memory_size(sections: Table<'_>, index: u32) -> u32 {
    let start = sections.offset + index as usize * SECTION_LENGTH;
    let size = number_at(sections.bytes, start + 8, ByteOrder::LittleEndian).unwrap();
    if size == 0 {
        number_at(sections.bytes, start + 16, ByteOrder::LittleEndian).unwrap()
    } else {
        size
    }
}

// The address for a row's value in the section of this index.
fn address_of(sections: SelectedSections<'_>, index: u32, value: u64) -> u64 {
    match sections {
        SelectedSections::Text(_) => value,
        SelectedSections::Memory(base, headers, _) => memory_address(
            base, headers, index,
        ).wrapping_add(value),
    }
}

// Where the section of this index begins in memory; 0 in an object.
fn memory_address(image_base: Option<u64>, sections: Table<'_>, index: u32) -> u64 {
    let start = sections.offset + index as usize * SECTION_LENGTH;
    let address: u32 = number_at(sections.bytes, start + 12, ByteOrder::LittleEndian).unwrap();
    match image_base {
        None => 0,
        Some(base) => base.wrapping_add(u64::from(address)),
    }
}

// The rows that end sizes in a section, in table order: the address of each and its index among them, and its name where
// it is kept.
struct Held<'a> {
    rows: Vec<RowAddress>,
    names: Vec<Option<&'a str>>,
}

/// Whether the selected sections have a function symbol: whether the list of `functions_of` has an element. Nothing is
/// allocated, and nothing is sorted.
pub fn has_functions(sections: SelectedSections<'_>, symbols: CoffTable<'_>) -> bool {
    let row_count = symbols.rows.len() / SYMBOL_LENGTH;
    let mut next = 0;
    while next < row_count {
        let number = next;
        let row = symbol_of(symbols, number);
        next = number + 1 + usize::from(row.number_of_aux_symbols);
        match kept_in(sections, symbols, number, row) {
            None => {}
            Some(_) => return true,
        }
    }
    false
}

// The rows that end sizes in each selected section.
fn rows_by_section<'a>(
    alloc: Global,
    sections: SelectedSections<'_>,
    symbols: CoffTable<'a>,
) -> Result<Vec<Held<'a>>, AllocError> {
    let (_, count) = span_of(sections);
    let row_count = symbols.rows.len() / SYMBOL_LENGTH;
    let mut held = no_rows_of(alloc, count)?;
    let mut next = 0;
    while next < row_count {
        let number = next;
        let row = symbol_of(symbols, number);
        next += 1 + usize::from(row.number_of_aux_symbols);
        match ending_of(sections, symbols, number, row) {
            None => {}
            Some((at, name)) => push_row(&mut held[to_usize(at)], u64::from(row.value), name)?,
        }
    }
    Ok(held)
}

// No rows so far, for each of as many sections.
fn no_rows_of<'a>(alloc: Global, count: u32) -> Result<Vec<Held<'a>>, AllocError> {
    let mut held = Vec::new(alloc);
    for _index in 0..count {
        held.push(no_rows(alloc))?;
    }
    Ok(held)
}

fn no_rows<'a>(alloc: Global) -> Held<'a> {
    Held {
        rows: Vec::new(alloc),
        names: Vec::new(alloc),
    }
}

fn push_row<'a>(held: &mut Held<'a>, address: u64, name: Option<&'a str>) -> Result<(), AllocError> {
    held.rows.push(RowAddress {
        address,
        index: held.names.len(),
    })?;
    held.names.push(name)?;
    Ok(())
}

// Adds the function symbols of the section of this index, of whose rows these are held.
fn push_functions<'a>(
    alloc: Global,
    functions: &mut Vec<SectionFunction<'a>>,
    sections: SelectedSections<'_>,
    index: u32,
    held: Held<'a>,
) -> Result<(), AllocError> {
    let arranged = arrange(alloc, held.rows)?;
    push_rows(
        functions,
        sections,
        index,
        &arranged.rows,
        &held.names,
        &arranged.above,
    )
}

// Adds the function symbols of arranged rows; `above` has the least address above each.
fn push_rows<'a>(
    functions: &mut Vec<SectionFunction<'a>>,
    sections: SelectedSections<'_>,
    index: u32,
    rows: &[RowAddress],
    names: &[Option<&'a str>],
    above: &[Option<u64>],
) -> Result<(), AllocError> {
    let bound = u64::from(bound_of(sections, index));
    for at in 0..rows.len() {
        let row = rows[at];
        let name = match names[row.index] {
            None => continue,
            Some(name) => name,
        };
        functions.push(SectionFunction {
            section: index + 1,
            info: 0,
            version: 0,
            function: FunctionSymbol {
                name,
                address: address_of(sections, index, row.address),
                size: size_at(sections, row.address, above[at], bound),
            },
        })?;
    }
    Ok(())
}

// The size at an address, given the least greater address that ends sizes and the size that sizes end at.
fn size_at(sections: SelectedSections<'_>, address: u64, above: Option<u64>, bound: u64) -> u64 {
    match sections {
        SelectedSections::Text(_) => size_up_to(address, above, bound),
        SelectedSections::Memory(_, _, _) => size_within(address, above, bound),
    }
}

// The distance from the address to the least of the text's size and `above` that is greater; 0 if neither is.
fn size_up_to(address: u64, above: Option<u64>, text_size: u64) -> u64 {
    let end = match above {
        None => text_size,
        Some(next) if address < text_size => next.min(text_size),
        Some(next) => next,
    };
    end.saturating_sub(address)
}

// The distance from the address to `above`, and to the section's end at the latest; 0 at and past that end.
fn size_within(address: u64, above: Option<u64>, section_size: u64) -> u64 {
    let end = match above {
        None => section_size,
        Some(next) => next.min(section_size),
    };
    end.saturating_sub(address)
}
