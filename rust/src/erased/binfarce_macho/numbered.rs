// From crates/binfarce_macho/src/numbered.rt, by tools/erase.

//! The sections of a file by their numbers, and which of them a selection takes.

use crate::shim::{String, Vec, to_usize};
use crate::erased::binfarce_macho::commands::{LC_SEGMENT_64, commands};
use crate::erased::binfarce_macho::header::MachoHeader;
use crate::erased::binfarce_macho::sections::{SECTION_LENGTH, Section, flags_at, section_at};
use crate::erased::binfarce_macho::symbols::Extent;
use crate::erased::binfarce_bytes::functions::Selection;
use crate::erased::binfarce_bytes::parser::number_at;
use crate::erased::binfarce_bytes::{ByteOrder, ParseError};
use crate::shim::alloc::{AllocError, Global};

// The greatest number of a section that a row can state (`MAX_SECT`).
pub(crate) const MAX_SECT: u8 = 255;

// `S_ATTR_PURE_INSTRUCTIONS` and `S_ATTR_SOME_INSTRUCTIONS`.
const S_ATTR_INSTRUCTIONS: u32 = 0x8000_0400;

/// A section: where it is in memory, whether it holds instructions, and its name as `SEGMENT,SECTION`, `None` if one
/// of the two isn't valid.
pub struct NumberedSection {
    pub extent: Extent,
    pub has_instructions: bool,
    pub name: Option<String>,
}

/// The code section of a file, the first `__TEXT,__text`: its index among the sections, and its size in bytes.
#[derive(Clone, Copy)]
pub(crate) struct CodeSection {
    pub(crate) index: usize,
    pub(crate) size: u64,
}

/// The sections of a file, in the order of their numbers, of which all are selected or the code section alone.
pub struct SelectedSections {
    pub(crate) sections: Vec<NumberedSection>,
    pub(crate) code: Option<CodeSection>,
}

impl SelectedSections {
    /// The size in bytes of the code section, where it alone is selected.
    pub fn size(&self) -> Option<u64> {
        match self.code {
            None => None,
            Some(code) => Some(code.size),
        }
    }

    /// The name of the section of this number, `SEGMENT,SECTION`; nothing is copied. `None` if there is no such
    /// section, and where one of its two names isn't valid.
    pub fn name(&self, number: u32) -> Option<&str> {
        name_of(&self.sections, number)
    }
}

fn name_of(sections: &[NumberedSection], number: u32) -> Option<&str> {
    let index = (to_usize(number)).checked_sub(1)?;
    match &sections.get(index)?.name {
        None => None,
        Some(name) => Some(name.as_str()),
    }
}

/// The sections of a file with this header, of which this selection takes all, or by whatever name the code section.
/// Refused as `find_section` of a reader is with a callback that accepts none, and then with `SymbolsSectionIsMissing`
/// where the code section is selected and missing. `OutOfMemory` comes only if the file has a section.
pub fn selected_sections(
    alloc: Global,
    file: &[u8],
    header: MachoHeader,
    selection: Selection<'_>,
) -> Result<SelectedSections, ParseError> {
    let sections = numbered_sections(alloc, file, header)?;
    let code = code_of(&sections, selection)?;
    Ok(SelectedSections { sections, code })
}

// The code section, where it is selected; refused if it is missing.
fn code_of(
    sections: &[NumberedSection],
    selection: Selection<'_>,
) -> Result<Option<CodeSection>, ParseError> {
    match selection {
        Selection::All => Ok(None),
        Selection::Section(_) => {
            let code = code_among(sections).ok_or(ParseError::SymbolsSectionIsMissing)?;
            Ok(Some(code))
        }
    }
}

fn code_among(sections: &[NumberedSection]) -> Option<CodeSection> {
    for index in 0..sections.len() {
        let section = &sections[index];
        if is_code(section) {
            return Some(CodeSection {
                index,
                size: section.extent.size,
            });
        }
    }
    None
}

fn is_code(section: &NumberedSection) -> bool {
    match &section.name {
        None => false,
        Some(name) => name.as_str() == "__TEXT,__text",
    }
}

// Where the structures of a file's sections begin, in the order of the sections' numbers, up to number 255. Refused as
// `find_section` of a reader is with a callback that accepts none; `OutOfMemory` comes only if the file has a
// section.
fn section_starts(alloc: Global, file: &[u8], header: MachoHeader) -> Result<Vec<usize>, ParseError> {
    let mut starts = Vec::new(alloc);
    for item in commands(file, header) {
        let command = item?;
        if command.kind == LC_SEGMENT_64 {
            push_sections(&mut starts, file, command.offset + 8)?;
        }
    }
    Ok(starts)
}

// Adds the sections of a segment command, up to number 255; refused if one is truncated.
fn push_sections(starts: &mut Vec<usize>, file: &[u8], body: usize) -> Result<(), ParseError> {
    if !none_truncated(file, body) {
        return Err(ParseError::UnexpectedEof);
    }
    let count: u32 = number_at(file, body + 56, ByteOrder::LittleEndian)?;
    let room = usize::from(MAX_SECT) - starts.len();
    push_starts(starts, body, room.min(to_usize(count)))?;
    Ok(())
}

// Whether no section of a segment command is truncated.
fn none_truncated(bytes: &[u8], body: usize) -> bool {
    match number_at::<u32>(bytes, body + 56, ByteOrder::LittleEndian) {
        Err(_) => false,
        Ok(count) => to_usize(count)
            <= (bytes.len() + 28).saturating_sub(body + 64) / SECTION_LENGTH,
    }
}

// Adds as many sections of a segment command.
fn push_starts(starts: &mut Vec<usize>, body: usize, count: usize) -> Result<(), AllocError> {
    for index in 0..count {
        starts.push(body + 64 + index * SECTION_LENGTH)?;
    }
    Ok(())
}

// The sections of a file with this header, in the order of their numbers.
fn numbered_sections(
    alloc: Global,
    file: &[u8],
    header: MachoHeader,
) -> Result<Vec<NumberedSection>, ParseError> {
    let starts = section_starts(alloc, file, header)?;
    Ok(sections_at(alloc, file, &starts)?)
}

// The sections whose structures begin there.
fn sections_at(
    alloc: Global,
    file: &[u8],
    starts: &[usize],
) -> Result<Vec<NumberedSection>, AllocError> {
    let mut sections = Vec::new(alloc);
    for start in starts {
        sections.push(numbered_at(alloc, file, *start)?)?;
    }
    Ok(sections)
}

fn numbered_at(alloc: Global, file: &[u8], start: usize) -> Result<NumberedSection, AllocError> {
    Ok(NumberedSection {
        extent: extent_at(file, start),
        has_instructions: has_instructions(file, start),
        name: name_at(alloc, file, start)?,
    })
}

fn extent_at(file: &[u8], start: usize) -> Extent {
    Extent {
        address: number_at(file, start + 32, ByteOrder::LittleEndian).unwrap(),
        size: number_at(file, start + 40, ByteOrder::LittleEndian).unwrap(),
    }
}

fn has_instructions(file: &[u8], start: usize) -> bool {
    flags_at(file, start) & S_ATTR_INSTRUCTIONS != 0
}

fn name_at(alloc: Global, file: &[u8], start: usize) -> Result<Option<String>, AllocError> {
    match section_at(file, start).unwrap() {
        None => Ok(None),
        Some(section) => Ok(Some(full_name(alloc, section)?)),
    }
}

fn full_name(alloc: Global, section: Section<'_>) -> Result<String, AllocError> {
    let mut name = String::new(alloc);
    name.push_str(section.segment_name)?;
    name.push_str(",")?;
    name.push_str(section.section_name)?;
    Ok(name)
}
