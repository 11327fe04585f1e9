//! Files of any format that is read: the file's first bytes name the format.

use crate::erased::binfarce::{elf32, elf64};
use crate::erased::binfarce_bytes::{format, functions as lookup};
use crate::erased::binfarce_sections::bytes as bytes_of;
use crate::erased::binfarce_sections::error::SectionError;
use crate::erased::binfarce_sections::kinds;
use crate::erased::binfarce_sections::sections as sections_of;
use crate::erased::binfarce_tools::functions as functions_of;
use crate::erased::binfarce_tools::list::{self as listing, ListError, Sink};
use crate::erased::binfarce_tools::report::{self as reporting, ReportError};
#[cfg(feature = "std")]
use crate::error::StreamError;
use crate::error::{Error, Foreign, ParseError};
use crate::foreign::{FIRST_LENGTH, named_by};
use crate::shim::{self, alloc::Global};
#[cfg(feature = "std")]
use crate::streams::read_by_format;
use crate::{AllFunctions, Format, FunctionSymbol, string_of};
use alloc::string::String;
#[cfg(feature = "std")]
use std::io::{Read, Seek};

/// Returns the format that a file's first 8 bytes name; a shorter file has none. The readers themselves don't check magic numbers.
///
/// As in the original, universal, 32-bit and big-endian Mach-O files and Java class files are [`Format::Macho`] here, though
/// [`macho`](crate::macho) can't read them. Calls for any format, such as [`sections`], refuse them with [`Error::UnknownFormat`].
///
/// # Examples
///
/// ```
/// use binfarce::{ByteOrder, Format, detect_format};
///
/// # let path = concat!(env!("CARGO_MANIFEST_DIR"), "/samples/elf64-little.bin");
/// let file = std::fs::read(path)?;
/// assert_eq!(detect_format(&file), Format::Elf64 { byte_order: ByteOrder::LittleEndian });
/// assert_eq!(detect_format(b"#!/bin/sh"), Format::Unknown);
/// # Ok::<(), std::io::Error>(())
/// ```
#[must_use]
pub fn detect_format(file: &[u8]) -> Format {
    format::detect_format(file)
}

/// Returns the format of a file that a reader reads, by its first `FIRST_LENGTH` bytes, or all of a shorter one.
///
/// # Errors
///
/// [`Error::UnknownFormat`] for any other file.
pub(crate) fn known_format(file: &[u8]) -> Result<Format, Error> {
    let first = file.get(..FIRST_LENGTH).unwrap_or(file);
    match (named_by(first), detect_format(first)) {
        (None, Format::Unknown) => Err(Error::UnknownFormat(None)),
        (None, format) => Ok(format),
        (Some(foreign), _) => Err(Error::UnknownFormat(Some(Foreign(foreign)))),
    }
}

/// Returns the function symbol at an address: of those in the list whose range holds it the one of greatest address, and of several
/// the first. `None` if no range holds it.
///
/// A range begins at the symbol's address and has its size in bytes; a symbol of size 0 holds its own address alone. The whole list
/// is searched and nothing is allocated; for many addresses there is [`Symbolizer`](crate::Symbolizer).
///
/// # Examples
///
/// ```
/// # let path = concat!(env!("CARGO_MANIFEST_DIR"), "/samples/macho.bin");
/// let file = std::fs::read(path)?;
/// let functions = binfarce::functions(&file, ".text")?.0.collect::<Vec<_>>();
/// let names = [0x103f, 0x1040, 0x1100].map(|address| binfarce::symbol_at(&functions, address).map(|function| function.name));
/// assert_eq!(names, [Some("a"), Some("c"), None]);
/// # Ok::<(), Box<dyn std::error::Error>>(())
/// ```
#[must_use]
pub fn symbol_at<'a>(functions: &[FunctionSymbol<'a>], address: u64) -> Option<FunctionSymbol<'a>> {
    lookup::symbol_at(functions, address)
}

/// Returns an iterator over the function symbols of a file, and the size of their section in bytes.
///
/// The section is the one with the name `section` of an ELF file, usually `.text`; of a Mach-O or PE file it is always the
/// code section, and the addresses and sizes are those that `all_functions` of the format's reader gives: a function ends at the
/// next symbol of its section or with it. The names are parts of the file, still mangled.
///
/// Left out are symbols of size 0 and indirect functions (`STT_GNU_IFUNC`) of an ELF file. [`Tables`](crate::Tables) of
/// [`Selection::All`](crate::Selection::All) have them.
///
/// # Errors
///
/// [`Error::UnknownFormat`]; [`Error::Parse`] where the reader of the file's format refuses it; [`Error::OutOfMemory`] where
/// an allocation failed.
///
/// # Examples
///
/// ```
/// # let path = concat!(env!("CARGO_MANIFEST_DIR"), "/samples/macho.bin");
/// let file = std::fs::read(path)?;
/// let (functions, text_size) = binfarce::functions(&file, ".text")?;
/// let sizes = functions.map(|function| (function.name, function.size)).collect::<Vec<_>>();
/// assert_eq!((sizes, text_size), (vec![("a", 64), ("b", 64), ("c", 192)], 256));
/// # Ok::<(), Box<dyn std::error::Error>>(())
/// ```
///
/// The largest functions first:
///
/// ```
/// # let path = concat!(env!("CARGO_MANIFEST_DIR"), "/samples/macho.bin");
/// let file = std::fs::read(path)?;
/// let mut functions = binfarce::functions(&file, ".text")?.0.collect::<Vec<_>>();
/// functions.sort_by_key(|function| std::cmp::Reverse(function.size));
/// assert_eq!(functions.iter().map(|function| function.name).collect::<Vec<_>>(), ["c", "a", "b"]);
/// # Ok::<(), Box<dyn std::error::Error>>(())
/// ```
pub fn functions<'a>(file: &'a [u8], section: &str) -> Result<(Functions<'a>, u64), Error> {
    // Of an ELF file the reader's own iterator, whose items have less to be read.
    let (functions, size) = match known_format(file)? {
        Format::Elf32 { byte_order } => elf32::parse(file, byte_order)?.functions(section)?,
        Format::Elf64 { byte_order } => elf64::parse(file, byte_order)?.functions(section)?,
        Format::Macho | Format::PE | Format::Unknown => {
            let (functions, size) = functions_of::functions_of_file(Global, file, section)?;
            return Ok((Functions(Items::All(AllFunctions::new(functions.all)?)), size));
        }
    };
    // A row has 16 bytes or more.
    Ok((Functions(Items::Elf(Bounded::new(functions, file.len() / 16))), size))
}

/// An iterator over the function symbols of a file: the answer of [`functions`] and of
/// [`Tables::functions`](crate::Tables::functions).
#[must_use = "iterators are lazy and do nothing unless consumed"]
#[derive(Clone)]
pub struct Functions<'a>(pub(crate) Items<'a>);

#[derive(Clone)]
pub(crate) enum Items<'a> {
    Elf(Bounded<elf32::Functions<'a>>),
    All(AllFunctions<'a>),
}

impl<'a> Iterator for Functions<'a> {
    type Item = FunctionSymbol<'a>;

    fn next(&mut self) -> Option<Self::Item> {
        match &mut self.0 {
            Items::Elf(functions) => functions.next(),
            Items::All(functions) => Some(functions.next()?.function),
        }
    }

    fn size_hint(&self) -> (usize, Option<usize>) {
        match &self.0 {
            Items::Elf(functions) => functions.size_hint(),
            Items::All(functions) => functions.size_hint(),
        }
    }
}

/// A section of a file of any format: what [`sections`] returns. Its names are parts of the file.
#[derive(Debug, Clone, Copy, PartialEq, Eq, Hash)]
#[non_exhaustive]
pub struct Section<'a> {
    /// In a Mach-O file the name of its segment (`segname`), as `__TEXT`; elsewhere `None`.
    pub segment: Option<&'a str>,
    /// Its name; `None` for an ELF section without one. In a PE file one of more than 8 bytes is in the string table; where it
    /// isn't there, this is the name in its header, as `/4`.
    pub name: Option<&'a str>,
    /// The address of its first byte in memory (`sh_addr`, `addr`); in a PE file counted from the image base
    /// (`VirtualAddress`).
    pub address: u64,
    /// Where its bytes begin in the file (`sh_offset`, `offset`, `PointerToRawData`), as the file states it.
    pub offset: u64,
    /// Its size in bytes (`sh_size`, `size`), as the file states it. In a PE file, the smaller one of `VirtualSize` and
    /// `SizeOfRawData`, or the other one where one is 0.
    pub size: u64,
    /// Whether it has bytes in the file: not in ELF where its type is `SHT_NOBITS`, not in Mach-O where it is filled with
    /// zeros by its type, or its offset is 0, and not in PE where `PointerToRawData` or `SizeOfRawData` is 0.
    pub has_bytes: bool,
    /// Its type.
    pub kind: SectionType,
    /// Its flags (`sh_flags`, `flags`, `Characteristics`); 0 in a Mach-O or PE file that ends before them.
    pub flags: u64,
    /// How many bytes it has in the file, as the file states it: its size, or 0 if it has none there. In a PE file
    /// `SizeOfRawData`, which an image rounds up.
    pub file_size: u64,
    /// How many bytes it has in memory: in ELF its size where its flags have `SHF_ALLOC`, else 0; in Mach-O its size; in PE
    /// `VirtualSize`, or `SizeOfRawData` if that is 0, as in an object file.
    pub memory_size: u64,
}

/// The type of a section, as a number of its format.
///
/// # Examples
///
/// ```
/// use binfarce::SectionType;
///
/// assert_eq!(SectionType::Elf(1).name(), Some("PROGBITS"));
/// assert_eq!(SectionType::Macho(1).name(), Some("ZEROFILL"));
/// assert_eq!((SectionType::Elf(0x6000_0000).name(), SectionType::Pe.number()), (None, None));
/// ```
#[derive(Debug, Clone, Copy, PartialEq, Eq, Hash)]
#[non_exhaustive]
pub enum SectionType {
    /// In an ELF file (`sh_type`).
    Elf(u32),
    /// In a Mach-O file: the low byte of its flags (`SECTION_TYPE`).
    Macho(u32),
    /// In a PE file, whose sections have no type.
    Pe,
}

impl SectionType {
    /// Returns its name: in ELF as readelf prints it, such as `PROGBITS`; in Mach-O that of `<mach-o/loader.h>` without `S_`,
    /// such as `REGULAR`. `None` for a number without a name there, and in PE.
    #[must_use]
    pub fn name(self) -> Option<&'static str> {
        kinds::SectionType::from(self).name()
    }

    /// Returns its number; `None` in PE.
    #[must_use]
    pub fn number(self) -> Option<u32> {
        kinds::SectionType::from(self).number()
    }
}

impl From<kinds::SectionType> for SectionType {
    fn from(kind: kinds::SectionType) -> Self {
        match kind {
            kinds::SectionType::Elf(number) => SectionType::Elf(number),
            kinds::SectionType::Macho(number) => SectionType::Macho(number),
            kinds::SectionType::Pe => SectionType::Pe,
        }
    }
}

impl From<SectionType> for kinds::SectionType {
    fn from(kind: SectionType) -> Self {
        match kind {
            SectionType::Elf(number) => kinds::SectionType::Elf(number),
            SectionType::Macho(number) => kinds::SectionType::Macho(number),
            SectionType::Pe => kinds::SectionType::Pe,
        }
    }
}

impl<'a> Section<'a> {
    fn of(section: sections_of::Section<'a>) -> Self {
        let sections_of::Section {
            segment,
            name,
            address,
            offset,
            size,
            has_bytes,
            kind,
            flags,
            file_size,
            memory_size,
        } = section;
        Section { segment, name, address, offset, size, has_bytes, kind: kind.into(), flags, file_size, memory_size }
    }
}

/// Returns an iterator over the sections of a file, in file order. A section header is read when the iterator reaches it.
///
/// # Errors
///
/// [`Error::UnknownFormat`]; [`Error::Parse`] where the file header is truncated.
///
/// # Examples
///
/// ```
/// # let path = concat!(env!("CARGO_MANIFEST_DIR"), "/samples/elf64-little.bin");
/// let file = std::fs::read(path)?;
/// let names = binfarce::sections(&file)?.map(|section| Ok(section?.name)).collect::<Result<Vec<_>, binfarce::ParseError>>()?;
/// assert_eq!(names[1..], [Some(".text"), Some(".symtab"), Some(".strtab"), Some(".shstrtab")]);
/// for section in binfarce::sections(&file)? {
///     let section = section?;
///     let kind = section.kind.name().unwrap_or("unknown");
///     println!("{:?}: {kind}, flags {:#x}, {} bytes in the file", section.name, section.flags, section.file_size);
/// }
/// # Ok::<(), Box<dyn std::error::Error>>(())
/// ```
pub fn sections(file: &[u8]) -> Result<Sections<'_>, Error> {
    known_format(file)?;
    Ok(Sections(sections_of::sections_of(file)?))
}

/// An iterator over the sections of a file: the answer of [`sections`]. After an error it ends.
#[must_use = "iterators are lazy and do nothing unless consumed"]
#[derive(Clone)]
pub struct Sections<'a>(sections_of::Sections<'a>);

impl<'a> Iterator for Sections<'a> {
    type Item = Result<Section<'a>, ParseError>;

    fn next(&mut self) -> Option<Self::Item> {
        Some(self.0.next()?.map(Section::of).map_err(ParseError::from))
    }
}

of_iterators!(Functions, Sections);

/// An iterator with a bound on how many items are left.
#[derive(Clone)]
pub(crate) struct Bounded<I> {
    items: I,
    most: usize,
}

impl<I> Bounded<I> {
    pub(crate) fn new(items: I, most: usize) -> Self {
        Bounded { items, most }
    }
}

impl<I: Iterator> Iterator for Bounded<I> {
    type Item = I::Item;

    fn next(&mut self) -> Option<I::Item> {
        self.most = self.most.saturating_sub(1);
        self.items.next()
    }

    fn size_hint(&self) -> (usize, Option<usize>) {
        (0, Some(self.most))
    }
}

/// Returns the bytes of the first section with this name, a part of the file.
///
/// In a Mach-O file the name is `SEGMENT,SECTION`, such as `__TEXT,__text`, or the name of a section in any segment. A PE
/// section has its full name here, which the string table has if it is longer than 8 bytes. The bytes of a PE section end at its
/// size in memory.
///
/// # Errors
///
/// [`Error::UnknownFormat`]; [`Error::Parse`] where the reader refuses the file before the section is found;
/// [`Error::NoSection`]; [`Error::NoBytes`] where the section has no bytes in the file, such as `.bss`; [`Error::PastEnd`] where
/// they end past the file.
///
/// # Examples
///
/// ```
/// # let path = concat!(env!("CARGO_MANIFEST_DIR"), "/samples/elf64-little.bin");
/// let file = std::fs::read(path)?;
/// assert_eq!(binfarce::section_bytes(&file, ".text")?.len(), 32);
/// assert_eq!(binfarce::section_bytes(&file, ".dep-v0"), Err(binfarce::Error::NoSection));
/// # Ok::<(), Box<dyn std::error::Error>>(())
/// ```
pub fn section_bytes<'a>(file: &'a [u8], name: &str) -> Result<&'a [u8], Error> {
    known_format(file)?;
    Ok(bytes_of::section_bytes(file, name)?)
}

/// Returns the bytes of the first section with this name, of a file that is read at offsets: only its first 512 bytes, its headers
/// and these bytes. With the feature `std`.
///
/// # Errors
///
/// [`StreamError::Stream`] with that of `file`; otherwise that of [`section_bytes`].
///
/// # Examples
///
/// ```
/// # let path = concat!(env!("CARGO_MANIFEST_DIR"), "/samples/elf64-little.bin");
/// let text = binfarce::read_section(std::fs::File::open(path)?, ".text")?;
/// assert_eq!(text.len(), 32);
/// # Ok::<(), Box<dyn std::error::Error>>(())
/// ```
#[cfg(feature = "std")]
pub fn read_section<R: Read + Seek>(file: R, name: &str) -> Result<Vec<u8>, StreamError> {
    let mut text = Text::new();
    read_by_format(file, |file, _| bytes_of::write_section_of(Global, file, &mut (), name, &mut text))?;
    Ok(text.bytes.into_std())
}

/// Returns the listing of a file's function symbols: a line `{address:016x} {size:>10} {trimmed name}` for each, and last
/// `text {size of the section}`. The section is as in [`functions`]; [`Tables`](crate::Tables) has the listing of all sections.
///
/// # Errors
///
/// Those of [`functions`].
///
/// # Examples
///
/// ```
/// # let path = concat!(env!("CARGO_MANIFEST_DIR"), "/samples/elf64-little.bin");
/// let file = std::fs::read(path)?;
/// assert_eq!(binfarce::list(&file, ".text")?, "0000000000001000         16 foo\ntext 32\n");
/// # Ok::<(), Box<dyn std::error::Error>>(())
/// ```
pub fn list(file: &[u8], section: &str) -> Result<String, Error> {
    known_format(file)?;
    let mut text = Text::new();
    listing::list(Global, file, section, &mut text)?;
    Ok(text.into_string())
}

/// Returns the report of how many bytes each crate takes in a file: a line `{sum of sizes:>10} {crate}` for each, in the
/// order of their bytes, then `sum {of all sizes}` and `text {size of the section}`. The section is as in [`functions`].
/// Symbols whose name has no crate are counted for `[unknown]`.
///
/// # Errors
///
/// Those of [`functions`]; [`Error::TooLarge`] where the sum of all sizes is 2^64 or more.
///
/// # Examples
///
/// ```
/// # let path = concat!(env!("CARGO_MANIFEST_DIR"), "/samples/elf64-little.bin");
/// let file = std::fs::read(path)?;
/// assert_eq!(binfarce::report(&file, ".text")?, "        16 foo\nsum 16\ntext 32\n");
/// # Ok::<(), Box<dyn std::error::Error>>(())
/// ```
pub fn report(file: &[u8], section: &str) -> Result<String, Error> {
    known_format(file)?;
    let mut text = Text::new();
    reporting::report(Global, file, section, &mut text)?;
    Ok(text.into_string())
}

/// Takes a text. It fails if there is no memory for it.
struct Text {
    bytes: shim::Vec<u8>,
    failed: bool,
}

impl Text {
    fn new() -> Self {
        Text { bytes: shim::Vec::new(Global), failed: false }
    }

    fn into_string(self) -> String {
        string_of(self.bytes)
    }
}

impl Sink for Text {
    fn write(&mut self, bytes: &[u8]) -> Option<usize> {
        self.failed = self.bytes.extend_from_slice(bytes).is_err();
        if self.failed { None } else { Some(bytes.len()) }
    }

    fn failed(&self) -> bool {
        self.failed
    }
}

#[doc(hidden)]
impl From<ListError> for Error {
    fn from(e: ListError) -> Self {
        match e {
            ListError::Unknown => Error::UnknownFormat(None),
            ListError::Parse(e) => Error::from(e),
            // A text fails if there is no memory for it.
            ListError::OutOfMemory | ListError::Write => Error::OutOfMemory,
        }
    }
}

#[doc(hidden)]
impl From<ReportError> for Error {
    fn from(e: ReportError) -> Self {
        match e {
            ReportError::Unknown => Error::UnknownFormat(None),
            ReportError::Parse(e) => Error::from(e),
            ReportError::TooLarge => Error::TooLarge,
            ReportError::OutOfMemory | ReportError::Write => Error::OutOfMemory,
        }
    }
}

#[doc(hidden)]
impl From<SectionError> for Error {
    fn from(e: SectionError) -> Self {
        match e {
            SectionError::Unknown => Error::UnknownFormat(None),
            SectionError::Parse(e) => Error::from(e),
            SectionError::NoSection => Error::NoSection,
            SectionError::NoBytes => Error::NoBytes,
            SectionError::PastEnd => Error::PastEnd,
            // A text fails if there is no memory for it.
            SectionError::OutOfMemory | SectionError::Write => Error::OutOfMemory,
            // Not of bytes in memory.
            SectionError::Unreadable => Error::Parse(ParseError::UnexpectedEof),
        }
    }
}
