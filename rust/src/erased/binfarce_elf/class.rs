// From crates/binfarce_elf/src/class.rt, by tools/erase.

//! The two classes of ELF files: their words, and their different layouts.

use crate::erased::binfarce_bytes::ByteOrder;
use crate::erased::binfarce_bytes::parser::{RawNumber, UnexpectedEof, number_at, slice_at};

// The standard's data types (gABI, "Data Representation"); addresses and offsets are words of the class.
pub type Half = u16;

pub type Word = u32;

pub type XWord = u64;

/// The class of a file (`EI_CLASS`), by the width of its words.
#[derive(Debug, Clone, Copy, PartialEq)]
pub enum Width {
    /// `ELFCLASS32`
    Bits32,
    /// `ELFCLASS64`
    Bits64,
}

impl Width {
    /// The length of the file header in bytes.
    pub fn header_length(self) -> usize {
        match self {
            Width::Bits32 => 52,
            Width::Bits64 => 64,
        }
    }

    /// The length of a section header in bytes.
    pub fn section_length(self) -> usize {
        match self {
            Width::Bits32 => 40,
            Width::Bits64 => 64,
        }
    }

    /// The length of a symbol table entry in bytes.
    pub fn symbol_length(self) -> usize {
        match self {
            Width::Bits32 => 16,
            Width::Bits64 => 24,
        }
    }
}

/// A row of a symbol table, with values of the wider class's widths.
#[derive(Clone, Copy)]
pub struct SymbolRow {
    pub name: Word,
    pub value: XWord,
    pub size: XWord,
    pub info: u8,
    pub other: u8,
    pub section: Half,
}

/// A class of ELF files, named by its word: `u32` for ELFCLASS32, `u64` for ELFCLASS64.
///
/// Addresses, offsets in the file, and the sizes of sections have a word's width.
pub trait Class: RawNumber + Copy {
    /// The name of the file header's type, as it is printed.
    const HEADER: &'static str;

    /// The length of a section header in bytes.
    const SECTION_LENGTH: usize;

    /// The class as a value.
    fn width() -> Width;

    /// The word in the wider class's type.
    fn widened(self) -> u64;

    /// How many entries of a size there are in this size; 0 if the entry size is 0.
    fn entries_of(self, entry_size: Self) -> Self;
}

impl Class for u32 {
    const HEADER: &'static str = "Elf32Header";

    const SECTION_LENGTH: usize = 40;

    fn width() -> Width {
        Width::Bits32
    }

    fn widened(self) -> u64 {
        u64::from(self)
    }

    fn entries_of(self, entry_size: u32) -> u32 {
        self.checked_div(entry_size).unwrap_or(0)
    }
}

impl Class for u64 {
    const HEADER: &'static str = "Elf64Header";

    const SECTION_LENGTH: usize = 64;

    fn width() -> Width {
        Width::Bits64
    }

    fn widened(self) -> u64 {
        self
    }

    fn entries_of(self, entry_size: u64) -> u64 {
        self.checked_div(entry_size).unwrap_or(0)
    }
}

/// The row at `start` of a symbol table of this class; refused if it is truncated.
#[cfg_attr(not(debug_assertions), inline(always))]
pub fn row_at(
    width: Width,
    bytes: &[u8],
    start: usize,
    byte_order: ByteOrder,
) -> Result<SymbolRow, UnexpectedEof> {
    match width {
        Width::Bits32 => row_at_32(bytes, start, byte_order),
        Width::Bits64 => row_at_64(bytes, start, byte_order),
    }
}

// Of a slice of one row, whose length the compiler knows, no read of a field checks bounds.
#[cfg_attr(not(debug_assertions), inline(always))]
fn row_at_32(bytes: &[u8], start: usize, byte_order: ByteOrder) -> Result<SymbolRow, UnexpectedEof> {
    let row = slice_at(bytes, start, 16)?;
    Ok(SymbolRow {
        name: number_at(row, 0, byte_order)?,
        value: u64::from(number_at::<u32>(row, 4, byte_order)?),
        size: u64::from(number_at::<u32>(row, 8, byte_order)?),
        info: number_at(row, 12, byte_order)?,
        other: number_at(row, 13, byte_order)?,
        section: number_at(row, 14, byte_order)?,
    })
}

#[cfg_attr(not(debug_assertions), inline(always))]
fn row_at_64(bytes: &[u8], start: usize, byte_order: ByteOrder) -> Result<SymbolRow, UnexpectedEof> {
    let row = slice_at(bytes, start, 24)?;
    Ok(SymbolRow {
        name: number_at(row, 0, byte_order)?,
        info: number_at(row, 4, byte_order)?,
        other: number_at(row, 5, byte_order)?,
        section: number_at(row, 6, byte_order)?,
        value: number_at(row, 8, byte_order)?,
        size: number_at(row, 16, byte_order)?,
    })
}
