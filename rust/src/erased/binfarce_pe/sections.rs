// From crates/binfarce_pe/src/sections.rt, by tools/erase.

//! The sections of a file (Microsoft PE Format, "Section Table").

use crate::shim::to_usize;
use crate::erased::binfarce_pe::parts::{SECTION_LENGTH, TableOffsets};
use crate::erased::binfarce_bytes::parser::{
    Stream, UnexpectedEof, number_at, range, slice_at, to_index, up_to_nul, utf8_text,
};
use crate::erased::binfarce_bytes::{ByteOrder, ParseError};
use core::ops::Range;

/// A section header's values ("Section Table"), and the section's index, counted from 0.
///
/// The name is a slice of the file; the section borrows the file, and not its reader.
#[derive(Debug, Clone, Copy)]
pub struct Section<'a> {
    pub(crate) name: &'a str,
    pub(crate) virtual_size: u32,
    pub(crate) virtual_address: u32,
    pub(crate) size_of_raw_data: u32,
    pub(crate) pointer_to_raw_data: u32,
    pub(crate) characteristics: u32,
    pub(crate) index: u16,
}

impl Section<'_> {
    /// The section's bytes as a range of the file: from its raw pointer on, as many as its raw size.
    ///
    /// The range isn't checked against the file's length.
    ///
    /// # Errors
    ///
    /// None: the range always fits a `usize` of 64 bits. `MalformedInput` if its end exceeds one of 32 bits.
    pub fn range(&self) -> Result<Range<usize>, ParseError> {
        range(
            self.pointer_to_raw_data as u64,
            self.size_of_raw_data as u64,
        )
    }
}

/// The section's bytes, a slice of the file; `UnexpectedEof` if they end past the file.
pub fn section_data<'a>(file: &'a [u8], section: &Section<'_>) -> Result<&'a [u8], ParseError> {
    let (offset, size) = (section.pointer_to_raw_data, section.size_of_raw_data);
    Ok(slice_at(file, to_usize(offset), to_usize(size))?)
}

/// An iterator over the sections of a file, in file order: the result of `Pe::sections`. It borrows the file's bytes.
///
/// A section header is read on demand. `UnexpectedEof` is given for a header that is truncated, and where the section
/// table doesn't begin in the file; nothing follows it.
#[must_use = "iterators are lazy and do nothing unless consumed"]
#[derive(Clone)]
pub struct Sections<'a> {
    table: Table<'a>,
    // The index of the next section header; none after a refusal.
    next: Option<u16>,
}

/// Section headers: the bytes that hold them, their offset in these bytes, and their number.
#[derive(Clone, Copy)]
pub struct Table<'a> {
    pub bytes: &'a [u8],
    pub offset: usize,
    pub count: u16,
}

/// All sections of a file whose tables are at these places.
pub fn sections_of<'a>(file: &'a [u8], places: TableOffsets) -> Sections<'a> {
    Sections {
        table: section_table(file, places),
        next: Some(0),
    }
}

/// The section headers of a file.
pub(crate) fn section_table<'a>(file: &'a [u8], places: TableOffsets) -> Table<'a> {
    Table {
        bytes: file,
        offset: to_index(places.sections),
        count: places.section_count,
    }
}

impl<'a> Iterator for Sections<'a> {
    type Item = Result<Section<'a>, ParseError>;

    fn next(&mut self) -> Option<Result<Section<'a>, ParseError>> {
        let index = self.next?;
        match section_left(self.table, index) {
            Err(_) => {
                self.next = None;
                Some(Err(ParseError::UnexpectedEof))
            }
            Ok(None) => None,
            Ok(Some((section, next))) => {
                self.next = Some(next);
                Some(Ok(section))
            }
        }
    }
}

// The first section from this index on, where the headers before it were whole, and the index after its own; `None`
// if there are no more.
#[inline]
fn section_left<'a>(
    table: Table<'a>,
    from: u16,
) -> Result<Option<(Section<'a>, u16)>, UnexpectedEof> {
    if table.offset >= table.bytes.len() {
        return Err(UnexpectedEof {});
    }
    for index in from..table.count {
        let start = table.offset + index as usize * SECTION_LENGTH;
        match section_at(table.bytes, start, index) {
            Err(e) => return Err(e),
            Ok(None) => {}
            Ok(Some(section)) => return Ok(Some((section, index + 1))),
        }
    }
    Ok(None)
}

/// The first section of the file that the callback accepts.
pub fn first_of_file<'a, F: Fn(Section<'a>) -> bool>(
    file: &'a [u8],
    places: TableOffsets,
    callback: F,
) -> Result<Option<Section<'a>>, UnexpectedEof> {
    first_section(section_table(file, places), callback)
}

// The first section of the table that the callback accepts.
pub(crate) fn first_section<'a, F: Fn(Section<'a>) -> bool>(
    table: Table<'a>,
    callback: F,
) -> Result<Option<Section<'a>>, UnexpectedEof> {
    let mut next = 0;
    while let Some((section, after)) = section_left(table, next)? {
        if is_accepted(&callback, section) {
            return Ok(Some(section));
        }
        next = after;
    }
    Ok(None)
}

/// The first section with this name.
pub fn section_with_name<'a>(
    file: &'a [u8],
    places: TableOffsets,
    name: &str,
) -> Result<Option<Section<'a>>, UnexpectedEof> {
    section_named(section_table(file, places), name)
}

// The first section of a table with this name. The error holds no text, so that the closure may borrow the name.
pub(crate) fn section_named<'a>(
    table: Table<'a>,
    name: &str,
) -> Result<Option<Section<'a>>, UnexpectedEof> {
    first_section(table, |section| section.name == name)
}

fn is_accepted<'a, F: Fn(Section<'a>) -> bool>(callback: &F, section: Section<'a>) -> bool {
    callback(section)
}

// The section whose header begins at `start`, if its name is UTF-8; refused if a field is truncated.
pub(crate) fn section_at(
    bytes: &[u8],
    start: usize,
    index: u16,
) -> Result<Option<Section<'_>>, UnexpectedEof> {
    let mut s = Stream::new_at(bytes, start, ByteOrder::LittleEndian)?;
    let name = s.read_bytes(8)?;
    let virtual_size = s.read()?;
    let virtual_address = s.read()?;
    let size_of_raw_data = s.read()?;
    let pointer_to_raw_data = s.read()?;
    match short_name(name) {
        None => Ok(None),
        Some(name) => Ok(Some(Section {
            name,
            virtual_size,
            virtual_address,
            size_of_raw_data,
            pointer_to_raw_data,
            characteristics: characteristics_at(bytes, start),
            index,
        })),
    }
}

// The flags of the section whose header begins at `start`; 0 if they are truncated.
fn characteristics_at(bytes: &[u8], start: usize) -> u32 {
    number_at(bytes, start + 36, ByteOrder::LittleEndian).unwrap_or(0)
}

// The bytes up to the first NUL, or all if there is none, as UTF-8.
pub(crate) fn short_name(bytes: &[u8]) -> Option<&str> {
    utf8_text(up_to_nul(bytes))
}
