// From crates/binfarce_pe/src/names.rt, by tools/erase.

//! The names of sections ("Section Table (Section Headers)", Name), of which long ones are in the string table.

use crate::shim::to_usize;
use crate::erased::binfarce_pe::parts::TableOffsets;
use crate::erased::binfarce_pe::sections::{Table, first_section};
use crate::erased::binfarce_bytes::ByteOrder;
use crate::erased::binfarce_bytes::parser::{number_at, parse_null_string, to_index};

// The length in bytes of the string table's own length, with which it begins.
const LENGTH_LENGTH: u32 = 4;

// How many digits a name of 8 bytes has room for behind a slash.
const MOST_DIGITS: usize = 7;

/// The string table of a file whose tables are at these places, a slice of the file: as many bytes as it states, or up
/// to the file's end. Empty if there is none.
pub fn strings_of(file: &[u8], places: TableOffsets) -> &[u8] {
    let offset = to_index(places.symbols.saturating_add(places.symbols_size));
    if offset == 0 {
        return &[];
    }
    if offset > file.len() {
        return &[];
    }
    string_table(&file[offset..])
}

/// The string table in the bytes from its beginning on, a part of them: as many as it states, or all. Empty where they
/// have no room for its length.
pub fn string_table(bytes: &[u8]) -> &[u8] {
    match number_at::<u32>(bytes, 0, ByteOrder::LittleEndian) {
        Err(_) => &[],
        Ok(size) => &bytes[..bytes.len().min(to_usize(size))],
    }
}

/// A section's name. A stored name `/N`, with N in decimal digits, is the text at offset N of the string table, if there
/// is one; any other name, and that of a number that leads to no text, is as it is stored. Nothing is copied.
pub fn full_name<'a>(strings: &'a [u8], stored: &'a str) -> &'a str {
    match offset_in(stored) {
        None => stored,
        Some(offset) => text_in(strings, offset).unwrap_or(stored),
    }
}

// The text at an offset of the string table; its first bytes are its length, and no text.
fn text_in(strings: &[u8], offset: u32) -> Option<&str> {
    if offset < LENGTH_LENGTH {
        return None;
    }
    parse_null_string(strings, to_usize(offset))
}

// The offset in the string table that a stored name states.
fn offset_in(stored: &str) -> Option<u32> {
    decimal(stored.as_bytes().strip_prefix(b"/")?)
}

// The number that decimal digits write.
fn decimal(digits: &[u8]) -> Option<u32> {
    if digits.is_empty() || digits.len() > MOST_DIGITS {
        return None;
    }
    let mut number = 0;
    for digit in digits {
        number = 10 * number + char::from(*digit).to_digit(10)?;
    }
    Some(number)
}

/// Whether the name of a section of the table is in the string table.
pub fn has_long_names(table: Table<'_>) -> bool {
    match first_section(table, |section| offset_in(section.name).is_some()) {
        Err(_) => false,
        Ok(found) => found.is_some(),
    }
}
