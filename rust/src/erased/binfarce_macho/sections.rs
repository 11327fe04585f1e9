// From crates/binfarce_macho/src/sections.rt, by tools/erase.

//! The sections of a file (`section_64` of Apple's `<mach-o/loader.h>`).

use crate::erased::binfarce_macho::commands::{
    Command, Damage, LC_SEGMENT_64, MachoCommandsIterator, commands,
};
use crate::erased::binfarce_macho::header::MachoHeader;
use crate::erased::binfarce_bytes::parser::{
    Stream, UnexpectedEof, number_at, range, slice_at, to_index, up_to_nul, utf8_text,
};
use crate::erased::binfarce_bytes::{ByteOrder, ParseError};
use core::ops::Range;

pub(crate) const SECTION_LENGTH: usize = 80;

/// A section (`section_64`): its names, its address, the offset and size of its bytes, and its flags. The names are
/// slices of the file.
#[derive(Debug, Clone, Copy)]
pub struct Section<'a> {
    pub(crate) segment_name: &'a str,
    pub(crate) section_name: &'a str,
    pub(crate) address: u64,
    pub(crate) offset: u32,
    pub(crate) size: u64,
    pub(crate) flags: u32,
}

impl Section<'_> {
    /// The section's bytes as a range of the file (`offset`, `size`). It isn't checked against the file's length.
    ///
    /// # Errors
    ///
    /// `MalformedInput` if the range's end exceeds `usize`.
    pub fn range(&self) -> Result<Range<usize>, ParseError> {
        range(self.offset as u64, self.size)
    }
}

/// The section's bytes, a slice of the file. `MalformedInput` if their end exceeds 64 bits, `UnexpectedEof` if
/// it lies past the file.
pub fn section_data<'a>(file: &'a [u8], section: &Section<'_>) -> Result<&'a [u8], ParseError> {
    let (offset, size) = (section.offset as u64, section.size);
    offset.checked_add(size).ok_or(ParseError::MalformedInput)?;
    Ok(slice_at(file, to_index(offset), to_index(size))?)
}

/// An iterator over the sections of a file, in file order: the result of `sections` of a reader. It borrows the file's
/// bytes.
///
/// A section is read on demand. An error is given for a segment command or a section that is truncated
/// (`UnexpectedEof`), and for a load command whose size is below 8 (`MalformedInput`); nothing follows it.
#[must_use = "iterators are lazy and do nothing unless consumed"]
#[derive(Clone)]
pub struct Sections<'a> {
    left: Left<'a>,
}

// The load commands after a segment command, and the rest of that segment.
#[derive(Clone)]
struct Left<'a> {
    commands: MachoCommandsIterator<'a>,
    segment: Segment,
}

// A segment command: where its body begins, how many sections it has, and the index of the next.
#[derive(Clone, Copy)]
struct Segment {
    body: usize,
    count: u32,
    next: u32,
}

const NO_SEGMENT: Segment = Segment {
    body: 0,
    count: 0,
    next: 0,
};

/// All sections of a file with this header.
pub fn sections_of(file: &[u8], header: MachoHeader) -> Sections<'_> {
    Sections {
        left: all_left(file, header),
    }
}

// All sections of a file with this header, before the first.
fn all_left(file: &[u8], header: MachoHeader) -> Left<'_> {
    Left {
        commands: commands(file, header),
        segment: NO_SEGMENT,
    }
}

impl<'a> Iterator for Sections<'a> {
    type Item = Result<Section<'a>, ParseError>;

    fn next(&mut self) -> Option<Result<Section<'a>, ParseError>> {
        match next_section(&mut self.left) {
            None => None,
            Some(Err(damage)) => Some(Err(ParseError::from(damage))),
            Some(Ok(section)) => Some(Ok(section)),
        }
    }
}

// The first section that is left: of the segment, or of one after it.
fn next_section<'a>(left: &mut Left<'a>) -> Option<Result<Section<'a>, Damage>> {
    loop {
        match section_left(left.commands.bytes, left.segment) {
            Err(_) => {
                left.commands.left = 0;
                left.segment = NO_SEGMENT;
                return Some(Err(Damage::Truncated));
            }
            Ok(Some((section, next))) => {
                left.segment.next = next;
                return Some(Ok(section));
            }
            Ok(None) => {}
        }
        match next_segment(&mut left.commands) {
            None => return None,
            Some(Err(damage)) => {
                left.commands.left = 0;
                left.segment = NO_SEGMENT;
                return Some(Err(damage));
            }
            Some(Ok(segment)) => left.segment = segment,
        }
    }
}

// The first section that the segment has left, and the index after it; `None` if there are no more.
fn section_left(bytes: &[u8], segment: Segment) -> Result<Option<(Section<'_>, u32)>, UnexpectedEof> {
    for index in segment.next..segment.count {
        let start = segment.body + 64 + index as usize * SECTION_LENGTH;
        match section_at(bytes, start) {
            Err(e) => return Err(e),
            Ok(None) => {}
            Ok(Some(section)) => return Ok(Some((section, index + 1))),
        }
    }
    Ok(None)
}

// The next segment command, before its first section.
fn next_segment(commands: &mut MachoCommandsIterator<'_>) -> Option<Result<Segment, Damage>> {
    while let Some(item) = commands.next() {
        match item {
            Err(damage) => return Some(Err(damage)),
            Ok(command) => {
                if command.kind == LC_SEGMENT_64 {
                    return Some(first_of_segment(commands.bytes, command));
                }
            }
        }
    }
    None
}

// The segment of a command whose head lies in the file, before its first section; refused if its count is truncated.
fn first_of_segment(bytes: &[u8], command: Command) -> Result<Segment, Damage> {
    let body = command.offset + 8;
    match number_at(bytes, body + 56, ByteOrder::LittleEndian) {
        Err(_) => Err(Damage::Truncated),
        Ok(count) => Ok(Segment {
            body,
            count,
            next: 0,
        }),
    }
}

/// The first section that the callback accepts, in a file with this header: the answer of `find_section` of a reader.
pub fn find_section<'a, F: Fn(Section<'_>) -> bool>(
    file: &'a [u8],
    header: MachoHeader,
    callback: F,
) -> Result<Option<Section<'a>>, ParseError> {
    Ok(first_section(file, header, callback)?)
}

// The first section that the callback accepts. The error holds no text, so that a closure may borrow.
fn first_section<'a, F: Fn(Section<'_>) -> bool>(
    file: &'a [u8],
    header: MachoHeader,
    callback: F,
) -> Result<Option<Section<'a>>, Damage> {
    let mut left = all_left(file, header);
    while let Some(item) = next_section(&mut left) {
        let section = item?;
        if callback(section) {
            return Ok(Some(section));
        }
    }
    Ok(None)
}

/// The first section with these two names, in a file with this header.
pub fn section_with_name<'a>(
    file: &'a [u8],
    header: MachoHeader,
    segment_name: &str,
    section_name: &str,
) -> Result<Option<Section<'a>>, ParseError> {
    Ok(first_section(file, header, |section| {
        section.segment_name == segment_name && section.section_name == section_name
    })?)
}

// The section whose structure begins at `start`, if both its names are valid; refused if a field is truncated.
pub(crate) fn section_at(bytes: &[u8], start: usize) -> Result<Option<Section<'_>>, UnexpectedEof> {
    let mut s = Stream::new_at(bytes, start, ByteOrder::LittleEndian)?;
    let section_name = s.read_bytes(16)?;
    let segment_name = s.read_bytes(16)?;
    let address = s.read()?;
    let size = s.read()?;
    let offset = s.read()?;
    match name_in(section_name) {
        None => Ok(None),
        Some(section_name) => match name_in(segment_name) {
            None => Ok(None),
            Some(segment_name) => Ok(Some(Section {
                segment_name,
                section_name,
                address,
                offset,
                size,
                flags: flags_at(bytes, start),
            })),
        },
    }
}

// The flags of the section whose structure begins at `start`; 0 if they are truncated.
pub(crate) fn flags_at(bytes: &[u8], start: usize) -> u32 {
    number_at(bytes, start + 64, ByteOrder::LittleEndian).unwrap_or(0)
}

// The name in a field's bytes: those up to the first NUL, or all if there is none.
pub(crate) fn name_in(bytes: &[u8]) -> Option<&str> {
    let name = up_to_nul(bytes);
    if name.is_empty() {
        return None;
    }
    utf8_text(name)
}
