// From crates/binfarce_elf_memory/src/descriptors.rt, by tools/erase.

//! The functions of 64-bit PowerPC files of ABI version 1: their symbols have the addresses of descriptors, which begin
//! with the addresses of the code.

use crate::shim::Vec;
use crate::erased::binfarce_elf_memory::ends::{FileKind, is_function_kind, key_above, put_in_order};
use crate::erased::binfarce_elf_memory::parts::section_at;
use crate::erased::binfarce_elf_memory::selection::Taken;
use crate::erased::binfarce_elf_memory::versions::bytes_if;
use crate::erased::binfarce_bytes::ByteOrder;
use crate::erased::binfarce_bytes::parser::{number_at, slice_at, to_index};
use crate::erased::binfarce_elf::class::{Half, SymbolRow, Width, Word, row_at};
use crate::erased::binfarce_elf::sections::{Section, Table, index_of, section_named};
use crate::shim::alloc::{AllocError, Global};

// A row of a symbol table of 64 bits, its section's index, its value and its size.
const ROW: usize = 24;

const SECTION: usize = 6;

const VALUE: usize = 8;

const SIZE: usize = 16;

// Sections' numbers are from their ends times this on.
const INDICES: u128 = 1 << 16;

// The rows of a selection of a file with these section names, where they aren't those that the file stores.
pub(crate) fn placed_rows(
    alloc: Global,
    table: Table<'_>,
    names: Option<&[u8]>,
    width: Width,
    kind: FileKind,
    taken: Taken,
    rows: &[u8],
) -> Result<Option<Vec<u8>>, AllocError> {
    match needed_descriptors(table, names, width, kind, taken) {
        None => Ok(None),
        Some(section) => {
            let descriptors = bytes_if(table.data, stored(section));
            Ok(Some(rows_in_code(alloc, table, width, section, descriptors, rows)?))
        }
    }
}

/// The section of the descriptors that the functions of a selection need: in 64-bit PowerPC files of ABI version 1, for
/// all sections. Its bytes are needed where it is `stored`.
pub fn needed_descriptors(
    table: Table<'_>,
    names: Option<&[u8]>,
    width: Width,
    kind: FileKind,
    taken: Taken,
) -> Option<Section<u64>> {
    match taken {
        Taken::Section { .. } => None,
        Taken::All { .. } => descriptors_section(table, names, width, kind),
    }
}

// The section of the descriptors of a file of this class and kind, whose section names these are; `None` for a file
// whose functions have none.
fn descriptors_section(
    table: Table<'_>,
    names: Option<&[u8]>,
    width: Width,
    kind: FileKind,
) -> Option<Section<u64>> {
    match width {
        Width::Bits32 => None,
        Width::Bits64 => if kind.has_descriptors() {
            section_named::<u64>(table, names, ".opd").unwrap_or(None)
        } else {
            None
        }
    }
}

/// The section, if it has bytes in the file.
pub fn stored(section: Section<u64>) -> Option<Section<u64>> {
    const SHT_NOBITS: Word = 8;
    if section.section_type() == SHT_NOBITS {
        None
    } else {
        Some(section)
    }
}

/// These rows, with the functions whose descriptors are in this section, of these bytes, where their code is. The only
/// error is a failed allocation.
pub fn rows_in_code(
    alloc: Global,
    table: Table<'_>,
    width: Width,
    section: Section<u64>,
    descriptors: &[u8],
    rows: &[u8],
) -> Result<Vec<u8>, AllocError> {
    let ends = code_ends(alloc, table, width)?;
    let mut placed = Vec::with_capacity(alloc, rows.len())?;
    for k in 0..rows.len() / ROW {
        push_row(
            &mut placed,
            table,
            width,
            &ends,
            section,
            descriptors,
            rows,
            k,
        )?;
    }
    Ok(placed)
}

// Adds row k: that of a function where its code is.
fn push_row(
    placed: &mut Vec<u8>,
    table: Table<'_>,
    width: Width,
    ends: &[u128],
    section: Section<u64>,
    descriptors: &[u8],
    rows: &[u8],
    k: usize,
) -> Result<(), AllocError> {
    let bytes = slice_at(rows, k * ROW, ROW).unwrap();
    let row = row_at(Width::Bits64, rows, k * ROW, table.byte_order).unwrap();
    if has_descriptor(section, row) {
        let code = code_bytes(section, descriptors, row.value);
        push_in_code(placed, table, width, ends, bytes, code)?;
    } else {
        placed.extend_from_slice(bytes)?;
    }
    Ok(())
}

// Whether a row is of a function with a descriptor in this section.
fn has_descriptor(section: Section<u64>, row: SymbolRow) -> bool {
    is_function_kind(true, row) && row.section == index_of(section)
}

// Adds the row of a function with the section and the address of its code.
fn push_in_code(
    placed: &mut Vec<u8>,
    table: Table<'_>,
    width: Width,
    ends: &[u128],
    row: &[u8],
    code: Option<&[u8]>,
) -> Result<(), AllocError> {
    match code {
        None => push_place(placed, row, &[0, 0], &row[VALUE..SIZE])?,
        Some(code) => {
            let address = number_at(code, 0, table.byte_order).unwrap();
            let holding = section_holding(table, width, ends, address);
            push_place(placed, row, &index_bytes(table.byte_order, holding), code)?
        }
    }
    Ok(())
}

// Adds the bytes of a row with another section and another value.
fn push_place(
    placed: &mut Vec<u8>,
    row: &[u8],
    section: &[u8],
    value: &[u8],
) -> Result<(), AllocError> {
    placed.extend_from_slice(&row[..SECTION])?;
    placed.extend_from_slice(section)?;
    placed.extend_from_slice(value)?;
    placed.extend_from_slice(&row[SIZE..])?;
    Ok(())
}

// The two bytes of a section's index.
fn index_bytes(byte_order: ByteOrder, index: Half) -> [u8; 2] {
    let (low, high) = ((index % 256) as u8, (index / 256) as u8);
    match byte_order {
        ByteOrder::LittleEndian => [low, high],
        ByteOrder::BigEndian => [high, low],
    }
}

// The first 8 bytes of the descriptor at this address, where the section has them.
fn code_bytes(section: Section<u64>, descriptors: &[u8], address: u64) -> Option<&[u8]> {
    let place = address.checked_sub(section.address())?;
    slice_at(descriptors, to_index(place), 8).ok()
}

// The numbers of the ends of the sections of code, in order.
fn code_ends(alloc: Global, table: Table<'_>, width: Width) -> Result<Vec<u128>, AllocError> {
    let mut ends = ends_in_order(alloc, table, width)?;
    put_in_order(&mut ends);
    Ok(ends)
}

// These in the order of the sections.
fn ends_in_order(alloc: Global, table: Table<'_>, width: Width) -> Result<Vec<u128>, AllocError> {
    let mut ends = Vec::new(alloc);
    for index in 0..table.shnum {
        push_end(&mut ends, section_numbered(table, width, index))?;
    }
    Ok(ends)
}

// Adds the number of the end of a section of code.
fn push_end(ends: &mut Vec<u128>, section: Option<Section<u64>>) -> Result<(), AllocError> {
    match section {
        None => {}
        Some(section) => {
            if has_code(section) {
                ends.push(end_number(section))?;
            }
        }
    }
    Ok(())
}

// The section of this index, if there is one.
fn section_numbered(table: Table<'_>, width: Width, index: Half) -> Option<Section<u64>> {
    if index >= table.shnum {
        return None;
    }
    let before = width.section_length() * usize::from(index);
    let start = table.shoff.saturating_add(before);
    match section_at(table.data, start, width, table.byte_order, index) {
        Ok(section) => Some(section),
        Err(_) => None,
    }
}

// Whether a section has code.
fn has_code(section: Section<u64>) -> bool {
    const SHF_EXECINSTR: u64 = 4;
    section.flags() & SHF_EXECINSTR != 0
}

// The number of a section's end and its index.
fn end_number(section: Section<u64>) -> u128 {
    let end = u128::from(section.address()) + u128::from(section.size());
    end * INDICES + u128::from(index_of(section))
}

// The index of the section of code that holds an address, by the numbers of their ends; 0 if none does.
fn section_holding(table: Table<'_>, width: Width, ends: &[u128], address: u64) -> Half {
    match key_above(ends, u128::from(address) * INDICES + (INDICES - 1)) {
        None => 0,
        Some(number) => if_begun(table, width, address, (number % INDICES) as u16),
    }
}

// The index of this section, where it begins at or before an address; else 0.
fn if_begun(table: Table<'_>, width: Width, address: u64, index: Half) -> Half {
    match section_numbered(table, width, index) {
        None => 0,
        Some(section) => if section.address() <= address {
            index
        } else {
            0
        },
    }
}
