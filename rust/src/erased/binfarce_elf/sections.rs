// From crates/binfarce_elf/src/sections.rt, by tools/erase.

//! The sections of a file of either class: their headers, the walk over these, and the names (gABI, "Sections").

use crate::shim::to_usize;
use crate::erased::binfarce_elf::class::{Class, Half, Word};
use crate::erased::binfarce_elf::header::Header;
use crate::erased::binfarce_bytes::parser::{
    Stream, UnexpectedEof, parse_null_string, range, slice_at, to_index,
};
use crate::erased::binfarce_bytes::{ByteOrder, ParseError};
use core::marker::PhantomData;
use core::ops::Range;

/// A section header's values (gABI, "Section Header"), and the section's index. It borrows nothing.
#[derive(Debug, Clone, Copy)]
pub struct Section<C> {
    pub(crate) index: Half,
    pub(crate) name_offset: Word,
    pub(crate) kind: Word,
    pub(crate) flags: C,
    pub(crate) address: C,
    pub(crate) link: Word,
    pub(crate) offset: C,
    pub(crate) size: C,
    pub(crate) entry_size: C,
}

impl<C: Class> Section<C> {
    /// The values in the wider class's types.
    pub fn widened(self) -> Section<u64> {
        Section {
            index: self.index,
            name_offset: self.name_offset,
            kind: self.kind,
            flags: self.flags.widened(),
            address: self.address.widened(),
            link: self.link,
            offset: self.offset.widened(),
            size: self.size.widened(),
            entry_size: self.entry_size.widened(),
        }
    }

    /// The section's bytes as a range of the file (`sh_offset`, `sh_size`). It isn't checked against the file's length.
    ///
    /// # Errors
    ///
    /// `MalformedInput` if the range's end exceeds `usize`.
    pub fn range(&self) -> Result<Range<usize>, ParseError> {
        range(self.offset.widened(), self.size.widened())
    }

    /// How many entries of its entry size (`sh_entsize`) the section has; 0 if that size is 0.
    pub fn entries(&self) -> C {
        self.size.entries_of(self.entry_size)
    }

    /// The section's name, a slice of the file of `parent`; nothing is copied.
    ///
    /// `None` where the section of the section names, at index `shstrndx`, is truncated or lies outside the file.
    /// `None` also if there is no text at the name's offset: it has to be UTF-8, not empty, and end with a NUL
    /// (gABI, "String Table").
    pub fn name<'a, P: HasSections<'a, C>>(&self, parent: &P) -> Option<&'a str> {
        section_name::<C>(parent.section_table(), *self)
    }

    /// Whether this is the section's name, as `name` gives it. Of the section names only as many bytes as this one has
    /// are compared, and the one after them.
    pub fn is_named<'a, P: HasSections<'a, C>>(&self, parent: &P, name: &str) -> bool {
        is_named(
            names_bytes::<C>(parent.section_table()),
            self.name_offset,
            name,
        )
    }
}

/// The section header table of a file, as its header states it.
#[derive(Clone, Copy)]
pub struct Table<'a> {
    /// The file's bytes.
    pub data: &'a [u8],
    pub byte_order: ByteOrder,
    pub shoff: usize,
    pub shnum: Half,
    pub shstrndx: Half,
}

/// A file of this class with a section header table, in which a section looks up its name.
pub trait HasSections<'a, C: Class> {
    /// The file's section header table, as its header states it.
    fn section_table(&self) -> Table<'a>;
}

/// The section header table of a file with this header, as the header states it.
pub fn section_table<'a, C: Class>(
    file: &'a [u8],
    byte_order: ByteOrder,
    header: &Header<C>,
) -> Table<'a> {
    Table {
        data: file,
        byte_order,
        shoff: to_index(header.shoff.widened()),
        shnum: header.shnum,
        shstrndx: header.shstrndx,
    }
}

/// The section header at `start`, of the section with this index; refused if it is truncated.
#[cfg_attr(not(debug_assertions), inline(always))]
pub fn section_at<C: Class>(
    bytes: &[u8],
    start: usize,
    byte_order: ByteOrder,
    index: Half,
) -> Result<Section<C>, UnexpectedEof> {
    let mut s = Stream::new_at(bytes, start, byte_order)?;
    let name_offset = s.read()?;
    let kind = s.read()?;
    let flags = s.read()?;
    let address = s.read()?;
    let offset = s.read()?;
    let size = s.read()?;
    let link = s.read()?;
    s.skip_len(4 + C::SIZE)?; // info, addralign
    let entry_size = s.read()?;
    Ok(Section {
        index,
        name_offset,
        kind,
        flags,
        address,
        link,
        offset,
        size,
        entry_size,
    })
}

/// An iterator over the sections of a file, in file order: the result of `sections` of a reader. It borrows the file's
/// bytes.
///
/// A section header is read on demand. `UnexpectedEof` is given for a header that is truncated, and where the section
/// header table doesn't begin in the file; nothing follows it.
#[must_use = "iterators are lazy and do nothing unless consumed"]
#[derive(Clone)]
pub struct Sections<'a, C: Class> {
    table: Table<'a>,
    // The index of the next section; none after a refusal.
    next: Option<Half>,
    class: PhantomData<C>,
}

/// All sections of the table.
pub fn sections_of<'a, C: Class>(table: Table<'a>) -> Sections<'a, C> {
    Sections {
        table,
        next: Some(0),
        class: PhantomData,
    }
}

impl<'a, C: Class> Iterator for Sections<'a, C> {
    type Item = Result<Section<C>, ParseError>;

    fn next(&mut self) -> Option<Result<Section<C>, ParseError>> {
        let index = self.next?;
        match section_left::<C>(self.table, index) {
            Err(_) => {
                self.next = None;
                Some(Err(ParseError::UnexpectedEof))
            }
            Ok(None) => None,
            Ok(Some(section)) => {
                self.next = Some(index + 1);
                Some(Ok(section))
            }
        }
    }
}

// The section of this index, where those before it were whole; `None` if there are no more.
#[inline]
fn section_left<C: Class>(
    table: Table<'_>,
    index: Half,
) -> Result<Option<Section<C>>, UnexpectedEof> {
    if table.shoff >= table.data.len() {
        return Err(UnexpectedEof {});
    }
    if index >= table.shnum {
        return Ok(None);
    }
    let start = table.shoff + index as usize * C::SECTION_LENGTH;
    match section_at(table.data, start, table.byte_order, index) {
        Err(e) => Err(e),
        Ok(section) => Ok(Some(section)),
    }
}

/// The first section that the callback accepts.
///
/// A header is read only if the callback has refused the sections before it.
pub fn first_section<C: Class, F: Fn(Section<C>) -> bool>(
    table: Table<'_>,
    callback: F,
) -> Result<Option<Section<C>>, UnexpectedEof> {
    let mut index = 0;
    while let Some(section) = section_left::<C>(table, index)? {
        if callback(section) {
            return Ok(Some(section));
        }
        index += 1;
    }
    Ok(None)
}

/// The first section with this name. The section names are looked up once.
pub fn section_with_name<C: Class>(
    table: Table<'_>,
    name: &str,
) -> Result<Option<Section<C>>, UnexpectedEof> {
    section_named::<C>(table, names_bytes::<C>(table), name)
}

/// The first section with this name among the section names.
pub fn section_named<C: Class>(
    table: Table<'_>,
    names: Option<&[u8]>,
    name: &str,
) -> Result<Option<Section<C>>, UnexpectedEof> {
    first_section::<C, _>(table, |section| is_named(names, section.name_offset, name))
}

// Whether the name among the section names at this offset is this one.
pub(crate) fn is_named(names: Option<&[u8]>, offset: Word, name: &str) -> bool {
    match names {
        None => false,
        Some(names) => is_text_at(names, to_usize(offset), name),
    }
}

// Whether this text is at an offset. Only as many bytes as it has are compared, and the one after them.
fn is_text_at(bytes: &[u8], start: usize, text: &str) -> bool {
    let text = text.as_bytes();
    if text.is_empty() {
        return false;
    }
    match bytes.get(start..) {
        None => false,
        Some(rest) => match rest.strip_prefix(text) {
            None => false,
            Some(after) => after.starts_with(b"\0") && !text.contains(&0),
        },
    }
}

/// A section's name, a slice of the file.
pub(crate) fn section_name<'a, C: Class>(table: Table<'a>, section: Section<C>) -> Option<&'a str> {
    name_at(names_bytes::<C>(table), section.name_offset)
}

// The name among the section names at this offset.
pub(crate) fn name_at(names: Option<&[u8]>, offset: Word) -> Option<&str> {
    parse_null_string(names?, to_usize(offset))
}

/// The bytes of the section of the section names, where the file has them.
pub fn names_bytes<'a, C: Class>(table: Table<'a>) -> Option<&'a [u8]> {
    section_data(table.data, names_section::<C>(table)?).ok()
}

// The section of the section names, which isn't checked against the count.
fn names_section<C: Class>(table: Table<'_>) -> Option<Section<C>> {
    let before = C::SECTION_LENGTH.checked_mul(to_usize(table.shstrndx))?;
    let start = table.shoff.checked_add(before)?;
    section_at(table.data, start, table.byte_order, table.shstrndx).ok()
}

/// The section's name in these section names.
pub fn name_in<'a>(names: Option<&'a [u8]>, section: &Section<u64>) -> Option<&'a str> {
    name_at(names, section.name_offset)
}

/// Whether this is the section's name in these section names.
pub fn is_named_in(names: Option<&[u8]>, section: &Section<u64>, name: &str) -> bool {
    is_named(names, section.name_offset, name)
}

/// The section's index in the section header table.
pub fn index_of<C: Class>(section: Section<C>) -> Half {
    section.index
}

/// The section's bytes, a slice of the file. `MalformedInput` if their end exceeds 64 bits, `UnexpectedEof` if
/// it lies past the file.
pub fn section_data<C: Class>(file: &[u8], section: Section<C>) -> Result<&[u8], ParseError> {
    let (offset, size) = (section.offset.widened(), section.size.widened());
    offset.checked_add(size).ok_or(ParseError::MalformedInput)?;
    Ok(slice_at(file, to_index(offset), to_index(size))?)
}
