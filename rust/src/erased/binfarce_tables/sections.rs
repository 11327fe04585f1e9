// From crates/binfarce_tables/src/sections.rt, by tools/erase.

//! The section headers and the section names of an ELF file, read at their offsets.

use crate::shim::Vec;
use crate::erased::binfarce_tables::elf::{read_names, read_place};
use crate::erased::binfarce_tables::error::ReadError;
use crate::erased::binfarce_tables::opened::{Opened, open};
use crate::erased::binfarce_bytes::ByteOrder;
use crate::erased::binfarce_bytes::source::Source;
use crate::erased::binfarce_elf::class::Width;
use crate::erased::binfarce_elf_memory::parts::{
    AnySections, HeaderTable, name_of_index, sections_in,
};
use crate::shim::alloc::Global;

/// The section headers of a file and the section names, in memory, and the file's length.
pub struct SectionParts {
    pub(crate) headers: Vec<u8>,
    pub(crate) names: Option<Vec<u8>>,
    pub(crate) width: Width,
    pub(crate) place: HeaderTable,
    pub(crate) file_length: u64,
}

impl SectionParts {
    /// The sections in file order, as `sections` of a reader of the whole file gives them. Nothing is read.
    pub fn sections(&self) -> AnySections<'_> {
        let count = self.place.shnum;
        sections_in(&self.headers, self.width, self.place.byte_order, count)
    }

    /// The bytes of the section names, where the file has them. Nothing is copied.
    pub fn names(&self) -> Option<&[u8]> {
        self.names.as_deref()
    }

    // The name of the section of this index, if there is one and it has a name.
    pub(crate) fn name_of(&self, number: u32) -> Option<&str> {
        name_of_index(
            &self.headers,
            self.names(),
            self.width,
            self.place.byte_order,
            self.place.shnum,
            number,
        )
    }

    /// How many bytes the file had when its parts were read.
    pub fn file_length(&self) -> u64 {
        self.file_length
    }
}

/// Reads the section headers and the section names of a file of this class, numbers in the given order: the file header
/// of 52 or 64 bytes, the header of the section names' own section, the section names and all section headers. Each is
/// read once, into memory of its size, which is never more than the file has of it. No other byte is read, except the
/// first byte of a section header table without headers. The magic number isn't checked.
///
/// # Errors
///
/// `Refused` with `UnexpectedEof` if the file is too short for its header; `Unreadable` if the source can't be
/// read at offsets, or a read of it fails, and never for a source that can't fail, such as bytes in memory;
/// `OutOfMemory` if an allocation fails.
pub fn read_sections<S: Source>(
    alloc: Global,
    source: &S,
    log: &mut S::Log,
    width: Width,
    byte_order: ByteOrder,
) -> Result<SectionParts, ReadError> {
    let opened = open(alloc, source)?;
    sections_of(&opened, log, width, byte_order)
}

// Reads them of an opened file.
pub(crate) fn sections_of<S: Source>(
    opened: &Opened<'_, S>,
    log: &mut S::Log,
    width: Width,
    byte_order: ByteOrder,
) -> Result<SectionParts, ReadError> {
    let place = read_place(opened, log, width, byte_order)?;
    let names = read_names(opened, log, width, place)?;
    let headers = read_table(opened, log, width, place)?;
    Ok(SectionParts {
        headers,
        names,
        width,
        place,
        file_length: opened.len,
    })
}

// The section headers that are whole, up to the count. For a table without headers, its first byte if the file has it;
// for a table that begins past the file's end, nothing.
fn read_table<S: Source>(
    opened: &Opened<'_, S>,
    log: &mut S::Log,
    width: Width,
    place: HeaderTable,
) -> Result<Vec<u8>, ReadError> {
    if place.shoff >= opened.len {
        return Ok(Vec::new(opened.alloc));
    }
    if place.shnum == 0 {
        return opened.part(log, place.shoff, 1);
    }
    let size = width.section_length() as u64;
    let whole = opened.len.saturating_sub(place.shoff) / size;
    let count = whole.min(place.shnum as u64);
    opened.part(log, place.shoff, count * size)
}
