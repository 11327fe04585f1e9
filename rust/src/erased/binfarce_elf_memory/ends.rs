// From crates/binfarce_elf_memory/src/ends.rt, by tools/erase.

//! Where the functions of all sections end in memory, and their addresses.

use crate::shim::{Vec, to_usize};
use crate::erased::binfarce_bytes::ByteOrder;
use crate::erased::binfarce_elf::class::{Class, Half, SymbolRow, Width, Word, row_at};
use crate::erased::binfarce_elf::header::Header;
use crate::erased::binfarce_elf::sections::{Section, Table, section_at};
use crate::erased::binfarce_elf::symbols::Rows;
use crate::shim::alloc::{AllocError, Global};

/// What the file header says of addresses: the file's type, its machine and that machine's flags.
#[derive(Clone, Copy)]
pub struct FileKind {
    pub elf_type: Half,
    pub machine: Half,
    pub flags: Word,
}

/// The type, the machine and the flags that a file header states.
pub fn kind_of<C: Class>(header: &Header<C>) -> FileKind {
    FileKind {
        elf_type: header.elf_type,
        machine: header.machine,
        flags: header.flags,
    }
}

// The type of an object file.
const ET_REL: Half = 1;

// A section's keys are from its index times this on, one for each address.
const ADDRESSES: u128 = 1 << 64;

impl FileKind {
    /// Whether bit 0 of a function's value is its instruction set, and no part of its address.
    pub fn has_modes(self) -> bool {
        const EM_ARM: Half = 40;
        const EM_MIPS: Half = 8;
        self.machine == EM_ARM || self.machine == EM_MIPS
    }

    // Whether the values of functions are addresses of descriptors, in a file of 64 bits.
    pub(crate) fn has_descriptors(self) -> bool {
        const EM_PPC64: Half = 21;
        self.machine == EM_PPC64 && self.flags % 4 < 2 && self.elf_type != ET_REL
    }
}

// The key of an address in the section of this index: keys are in the order of sections, and in each of addresses.
fn key_of(section: Half, address: u64) -> u128 {
    u128::from(section) * ADDRESSES + u128::from(address)
}

// Whether a row's type is that of a function; or if these count, of an indirect one.
#[cfg_attr(not(debug_assertions), inline(always))]
pub(crate) fn is_function_kind(indirect: bool, row: SymbolRow) -> bool {
    const STT_FUNC: u8 = 2;
    const STT_GNU_IFUNC: u8 = 10;
    let kind = row.info & 0xf;
    kind == STT_FUNC || indirect && kind == STT_GNU_IFUNC
}

/// A row's address in memory, or in an object in its section.
#[cfg_attr(not(debug_assertions), inline(always))]
pub fn address_of(has_modes: bool, row: SymbolRow) -> u64 {
    if has_modes && is_function_kind(true, row) {
        row.value - row.value % 2
    } else {
        row.value
    }
}

// Whether a row marks a place within a function: as a mapping symbol, or a label of the assembler.
fn is_mark(strings: &[u8], row: SymbolRow) -> bool {
    match strings.get(to_usize(row.name)..) {
        None => false,
        Some(name) => row.info == 0 && (is_mapping(name) || name.starts_with(b".L")),
    }
}

// Whether it begins with the name of a mapping symbol, which marks code or data.
fn is_mapping(name: &[u8]) -> bool {
    name.starts_with(b"$x")
        || (name.starts_with(b"$a.") || name.starts_with(b"$a\0"))
        || (name.starts_with(b"$d.") || name.starts_with(b"$d\0"))
        || (name.starts_with(b"$t.") || name.starts_with(b"$t\0"))
}

// The address where a section ends, at most the greatest one.
fn end_of<C: Class>(kind: FileKind, section: Section<C>) -> u64 {
    let size = section.size().widened();
    if kind.elf_type == ET_REL {
        size
    } else {
        section.address().widened().saturating_add(size)
    }
}

// The keys of all addresses at which functions of a file's sections may end, in order.
pub(crate) fn keys_of<C: Class>(
    alloc: Global,
    table: Table<'_>,
    kind: FileKind,
    found: Rows<'_>,
) -> Result<Vec<u128>, AllocError> {
    let mut keys = Vec::new(alloc);
    push_sections::<C>(&mut keys, table, kind)?;
    push_rows(
        &mut keys,
        C::width(),
        table.byte_order,
        kind.has_modes(),
        found,
    )?;
    put_in_order(&mut keys);
    Ok(keys)
}

// Adds the keys of the sections' ends.
fn push_sections<C: Class>(
    keys: &mut Vec<u128>,
    table: Table<'_>,
    kind: FileKind,
) -> Result<(), AllocError> {
    for index in 0..table.shnum {
        let start = C::SECTION_LENGTH
            .saturating_mul(usize::from(index))
            .saturating_add(table.shoff);
        match section_at::<C>(table.data, start, table.byte_order, index) {
            Err(_) => {}
            Ok(section) => keys.push(key_of(index, end_of(kind, section)))?,
        }
    }
    Ok(())
}

// Adds the keys of the symbols' addresses.
fn push_rows(
    keys: &mut Vec<u128>,
    width: Width,
    byte_order: ByteOrder,
    has_modes: bool,
    found: Rows<'_>,
) -> Result<(), AllocError> {
    let length = width.symbol_length();
    for k in 0..found.rows.len() / length {
        let row = row_at(width, found.rows, k * length, byte_order).unwrap();
        if !is_mark(found.strings, row) {
            keys.push(key_of(row.section, address_of(has_modes, row)))?;
        }
    }
    Ok(())
}

pub(crate) fn put_in_order(keys: &mut Vec<u128>) {
    keys.sort_unstable();
}

// The size of a row in memory, by the keys of the ends.
pub(crate) fn row_size(keys: &[u128], has_modes: bool, row: SymbolRow) -> u64 {
    if row.size != 0 {
        return row.size;
    }
    let address = address_of(has_modes, row);
    match end_above(keys, row.section, address) {
        None => 0,
        Some(end) => end - address,
    }
}

// The least address above this one at which a function of this section may end.
fn end_above(keys: &[u128], section: Half, address: u64) -> Option<u64> {
    let next = key_above(keys, key_of(section, address))?;
    let end = next - key_of(section, 0);
    if end < ADDRESSES {
        Some(end as u64)
    } else {
        None
    }
}

// The least key above this one, by a binary search.
pub(crate) fn key_above(keys: &[u128], key: u128) -> Option<u128> {
    let place = keys.partition_point(|other| *other <= key);
    if place < keys.len() {
        Some(keys[place])
    } else {
        None
    }
}

// The sizes of all rows in memory.
pub(crate) fn sizes_of(
    alloc: Global,
    keys: &[u128],
    width: Width,
    byte_order: ByteOrder,
    has_modes: bool,
    rows: &[u8],
) -> Result<Vec<u64>, AllocError> {
    let length = width.symbol_length();
    let mut sizes = Vec::new(alloc);
    for k in 0..rows.len() / length {
        let row = row_at(width, rows, k * length, byte_order).unwrap();
        sizes.push(row_size(keys, has_modes, row))?;
    }
    Ok(sizes)
}
