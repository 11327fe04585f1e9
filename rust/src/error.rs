//! Errors.

use crate::erased::binfarce_bytes;
use crate::foreign;
use crate::shim::alloc::AllocError;
use alloc::alloc::{Layout, handle_alloc_error};
use core::{fmt, num};
#[cfg(feature = "std")]
use std::{error, io};

/// Why a reader refused a file.
///
/// # Examples
///
/// ```
/// use binfarce::{ByteOrder, ParseError, elf64};
///
/// let refused = elf64::parse(b"\x7fELF", ByteOrder::LittleEndian).err();
/// assert_eq!(refused, Some(ParseError::UnexpectedEof));
/// ```
#[derive(Debug, Clone, Copy, PartialEq, Eq, Hash)]
pub enum ParseError {
    /// No section of an ELF file has the requested name, or a Mach-O or PE file has no text section.
    SymbolsSectionIsMissing,
    /// An ELF file has no such symbol table (`.symtab` or `.dynsym`), or that links to no section (`.strtab` or
    /// `.dynstr`); or a Mach-O or PE file was asked for `.dynsym`.
    SectionIsMissing(&'static str),
    /// The section that an ELF symbol table links to is no string table.
    UnexpectedSectionType {
        /// The section type of a string table, 3 (`SHT_STRTAB`).
        expected: u32,
        /// The section type in the file.
        actual: u32,
    },
    /// A number in the file is invalid.
    MalformedInput,
    /// The file ends before the data that it should contain.
    UnexpectedEof,
}

impl ParseError {
    /// Returns what kind of error it is, as [`Error::kind`] does.
    ///
    /// # Examples
    ///
    /// ```
    /// use binfarce::{ByteOrder, ErrorKind, elf64};
    ///
    /// # let path = concat!(env!("CARGO_MANIFEST_DIR"), "/samples/elf64-little.bin");
    /// let file = std::fs::read(path)?;
    /// let elf = elf64::parse(&file, ByteOrder::LittleEndian)?;
    /// assert_eq!(elf.dynamic_functions(".text").err().map(|e| e.kind()), Some(ErrorKind::NoSymbolTable));
    /// # Ok::<(), Box<dyn std::error::Error>>(())
    /// ```
    #[must_use]
    pub fn kind(&self) -> ErrorKind {
        Error::Parse(*self).kind()
    }
}

impl fmt::Display for ParseError {
    fn fmt(&self, f: &mut fmt::Formatter<'_>) -> fmt::Result {
        match self {
            ParseError::SymbolsSectionIsMissing => write!(f, "symbols section is missing"),
            ParseError::SectionIsMissing(name) => write!(f, "section {name} is missing"),
            ParseError::UnexpectedSectionType { expected, actual } => {
                write!(f, "expected section type {expected} but found {actual}")
            }
            ParseError::MalformedInput => write!(f, "malformed input file"),
            ParseError::UnexpectedEof => write!(f, "unexpected end of file"),
        }
    }
}

/// With the feature `std`.
#[cfg(feature = "std")]
impl error::Error for ParseError {}

impl From<num::TryFromIntError> for ParseError {
    fn from(_: num::TryFromIntError) -> Self {
        ParseError::MalformedInput
    }
}

impl From<UnexpectedEof> for ParseError {
    fn from(_: UnexpectedEof) -> Self {
        ParseError::UnexpectedEof
    }
}

// For the calls whose signature has no place for a failed allocation: the program ends there, as where a `Vec` can't grow.
#[doc(hidden)]
impl From<binfarce_bytes::ParseError> for ParseError {
    fn from(e: binfarce_bytes::ParseError) -> Self {
        match Error::from(e) {
            Error::Parse(e) => e,
            _ => out_of_memory(),
        }
    }
}

/// Ends the program as a failed allocation of the standard library does.
pub(crate) fn out_of_memory() -> ! {
    handle_alloc_error(Layout::new::<u8>())
}

/// A file ends before the data that it should contain.
#[derive(Debug, Clone, Copy, PartialEq, Eq, Hash)]
pub struct UnexpectedEof {}

impl fmt::Display for UnexpectedEof {
    fn fmt(&self, f: &mut fmt::Formatter<'_>) -> fmt::Result {
        write!(f, "Unexpected end of file")
    }
}

/// With the feature `std`.
#[cfg(feature = "std")]
impl error::Error for UnexpectedEof {}

/// Why a call failed that also reports a failed allocation. Each call lists the errors that it returns.
///
/// # Examples
///
/// ```
/// use binfarce::{Error, ErrorKind, ParseError};
///
/// let refused = binfarce::functions(b"#!/bin/sh", ".text").unwrap_err();
/// assert_eq!(refused.kind(), ErrorKind::UnknownFormat);
/// assert_eq!(refused.to_string(), "a script");
/// assert_eq!(Error::Parse(ParseError::SectionIsMissing(".symtab")).kind(), ErrorKind::NoSymbolTable);
/// ```
#[derive(Debug, Clone, Copy, PartialEq, Eq, Hash)]
#[non_exhaustive]
pub enum Error {
    /// The file's first bytes name no format that is read; with what the file is, where they say that.
    UnknownFormat(Option<Foreign>),
    /// The reader of the file's format refused it.
    Parse(ParseError),
    /// The file has no section of this name.
    NoSection,
    /// The section has no bytes in the file.
    NoBytes,
    /// The section's bytes end past the file's end.
    PastEnd,
    /// The sum of all sizes is 2^64 or more.
    TooLarge,
    /// The maps of a process don't say where a file is loaded.
    NoBase,
    /// An allocation failed.
    OutOfMemory,
}

/// What a file is that no reader reads, where its first 512 bytes name it: a universal, 32-bit or big-endian Mach-O file, a Java
/// class file, an archive, a COFF object file, a PDB file, a WebAssembly module, LLVM bitcode, a core file, a DOS program, an NE or LE
/// file, a file of gzip, xz or zstd, a script, or a text in ASCII.
///
/// `{}` prints what it is.
///
/// # Examples
///
/// ```
/// use binfarce::Error;
///
/// let Err(Error::UnknownFormat(Some(foreign))) = binfarce::sections(b"\xca\xfe\xba\xbe\0\0\0\x02") else { panic!() };
/// assert_eq!(foreign.to_string(), "a universal Mach-O file");
/// ```
#[derive(Debug, Clone, Copy, PartialEq, Eq, Hash)]
pub struct Foreign(pub(crate) foreign::Foreign);

impl fmt::Display for Foreign {
    fn fmt(&self, f: &mut fmt::Formatter<'_>) -> fmt::Result {
        fmt::Write::write_fmt(&mut UpToAdvice(f), format_args!("{}", self.0))
    }
}

/// Writes a text without what the command `binfarce` adds for its users, behind a semicolon. The text comes in one piece.
struct UpToAdvice<'a, 'b>(&'a mut fmt::Formatter<'b>);

impl fmt::Write for UpToAdvice<'_, '_> {
    fn write_str(&mut self, text: &str) -> fmt::Result {
        self.0.pad(text.split(';').next().unwrap_or(text))
    }
}

/// What kind of error an [`Error`] is, whatever the file's format: what callers tell apart.
#[derive(Debug, Clone, Copy, PartialEq, Eq, Hash)]
#[non_exhaustive]
pub enum ErrorKind {
    /// The file's first bytes name no format that is read. Where they name another one, as those of a universal, 32-bit or
    /// big-endian Mach-O file, the error's text says which. [`detect_format`](crate::detect_format) and the readers' `parse`
    /// return no such error.
    UnknownFormat,
    /// The file has no symbol table of this kind: an ELF file lacks `.symtab` or `.dynsym`, or a Mach-O or PE file was asked for
    /// its dynamic symbols.
    NoSymbolTable,
    /// The file has no section of this name, or a Mach-O or PE file no text section.
    NoSection,
    /// The section has no bytes in the file.
    NoBytes,
    /// The file is damaged or truncated.
    Invalid,
    /// The sum of all sizes is 2^64 or more.
    TooLarge,
    /// The maps of a process don't say where a file is loaded.
    NoBase,
    /// An allocation failed.
    OutOfMemory,
}

impl Error {
    /// Returns what kind of error it is.
    ///
    /// | kind | errors |
    /// |---|---|
    /// | `UnknownFormat`, `NoBytes`, `TooLarge`, `NoBase`, `OutOfMemory` | the error of the same name |
    /// | `NoSymbolTable` | [`ParseError::SectionIsMissing`] of `.symtab` or `.dynsym` |
    /// | `NoSection` | [`Error::NoSection`] and [`ParseError::SymbolsSectionIsMissing`] |
    /// | `Invalid` | [`Error::PastEnd`] and every other [`ParseError`] |
    ///
    /// # Examples
    ///
    /// ```
    /// use binfarce::{ErrorKind, Selection, SymbolTable, Tables};
    ///
    /// # let path = concat!(env!("CARGO_MANIFEST_DIR"), "/samples/elf64-little.bin");
    /// let file = std::fs::read(path)?;
    /// let kind = |section, table| Tables::new(&file, Selection::Section(section), table).err().map(|e| e.kind());
    /// assert_eq!(kind(".init", SymbolTable::Symtab), Some(ErrorKind::NoSection));
    /// assert_eq!(kind(".text", SymbolTable::Dynsym), Some(ErrorKind::NoSymbolTable));
    /// # Ok::<(), std::io::Error>(())
    /// ```
    #[must_use]
    pub fn kind(&self) -> ErrorKind {
        match self {
            Error::UnknownFormat(_) => ErrorKind::UnknownFormat,
            Error::Parse(ParseError::SectionIsMissing(".symtab" | ".dynsym")) => ErrorKind::NoSymbolTable,
            Error::Parse(ParseError::SymbolsSectionIsMissing) | Error::NoSection => ErrorKind::NoSection,
            Error::NoBytes => ErrorKind::NoBytes,
            Error::Parse(_) | Error::PastEnd => ErrorKind::Invalid,
            Error::TooLarge => ErrorKind::TooLarge,
            Error::NoBase => ErrorKind::NoBase,
            Error::OutOfMemory => ErrorKind::OutOfMemory,
        }
    }

    /// Returns the error that became this [`io::Error`]; for each of the kind [`io::ErrorKind::OutOfMemory`] that is
    /// [`Error::OutOfMemory`]. `None` for any other error of a stream. With the feature `std`.
    ///
    /// # Examples
    ///
    /// ```
    /// use binfarce::{Error, ErrorKind, Selection, SymbolTable, Tables};
    ///
    /// let file = std::io::Cursor::new("#!/bin/sh");
    /// let refused = Tables::read(file, Selection::All, SymbolTable::Symtab).map_err(std::io::Error::from).unwrap_err();
    /// assert_eq!(Error::of_io(&refused).map(|e| e.kind()), Some(ErrorKind::UnknownFormat));
    /// ```
    #[cfg(feature = "std")]
    #[must_use]
    pub fn of_io(e: &io::Error) -> Option<Error> {
        match e.kind() {
            io::ErrorKind::OutOfMemory => Some(Error::OutOfMemory),
            _ => e.get_ref()?.downcast_ref().copied(),
        }
    }
}

impl fmt::Display for Error {
    fn fmt(&self, f: &mut fmt::Formatter<'_>) -> fmt::Result {
        match self {
            Error::UnknownFormat(Some(foreign)) => write!(f, "{foreign}"),
            Error::UnknownFormat(None) => write!(f, "unknown file format"),
            Error::Parse(e) => write!(f, "{e}"),
            Error::NoSection => write!(f, "no section of this name"),
            Error::NoBytes => write!(f, "section has no bytes in the file"),
            Error::PastEnd => write!(f, "section reaches past the end of the file"),
            Error::TooLarge => write!(f, "sizes are too large"),
            Error::NoBase => write!(f, "the maps don't say where the file is loaded"),
            Error::OutOfMemory => write!(f, "out of memory"),
        }
    }
}

/// With the feature `std`.
#[cfg(feature = "std")]
impl error::Error for Error {}

impl From<ParseError> for Error {
    fn from(e: ParseError) -> Self {
        Error::Parse(e)
    }
}

impl From<OutOfMemory> for Error {
    fn from(_: OutOfMemory) -> Self {
        Error::OutOfMemory
    }
}

#[doc(hidden)]
impl From<AllocError> for Error {
    fn from(_: AllocError) -> Self {
        Error::OutOfMemory
    }
}

#[doc(hidden)]
impl From<binfarce_bytes::ParseError> for Error {
    fn from(e: binfarce_bytes::ParseError) -> Self {
        use binfarce_bytes::ParseError as Refusal;
        Error::Parse(match e {
            Refusal::SymbolsSectionIsMissing => ParseError::SymbolsSectionIsMissing,
            Refusal::SectionIsMissing(name) => ParseError::SectionIsMissing(name),
            Refusal::UnexpectedSectionType { expected, actual } => {
                ParseError::UnexpectedSectionType { expected, actual }
            }
            Refusal::MalformedInput => ParseError::MalformedInput,
            Refusal::UnexpectedEof => ParseError::UnexpectedEof,
            Refusal::OutOfMemory => return Error::OutOfMemory,
        })
    }
}

/// With the feature `std`. [`Error::of_io`] leads back.
#[cfg(feature = "std")]
impl From<Error> for io::Error {
    fn from(e: Error) -> Self {
        match e {
            Error::OutOfMemory => OutOfMemory.into(),
            _ => io::Error::new(io::ErrorKind::InvalidData, e),
        }
    }
}

/// Why a call failed that reads or writes a stream. Nothing is allocated for it; as an [`io::Error`] a refusal is. With the feature
/// `std`.
///
/// # Examples
///
/// ```
/// use binfarce::{ErrorKind, Selection, StreamError, SymbolTable, Tables};
/// use std::io::{self, Cursor};
///
/// let refused = Tables::read(Cursor::new("#!/bin/sh"), Selection::All, SymbolTable::Symtab).unwrap_err();
/// assert_eq!(refused.refusal().map(|e| e.kind()), Some(ErrorKind::UnknownFormat));
///
/// fn list(file: std::fs::File) -> io::Result<()> {
///     Ok(Tables::read(file, Selection::All, SymbolTable::Symtab)?.list_to(io::stdout())?)
/// }
/// ```
#[cfg(feature = "std")]
#[derive(Debug)]
#[non_exhaustive]
pub enum StreamError {
    /// The stream's own error.
    Stream(io::Error),
    /// Any other reason.
    Refused(Error),
}

#[cfg(feature = "std")]
impl StreamError {
    /// Returns the reason if it isn't the stream's own error. With the feature `std`.
    #[must_use]
    pub fn refusal(&self) -> Option<Error> {
        match self {
            StreamError::Stream(_) => None,
            StreamError::Refused(e) => Some(*e),
        }
    }
}

#[cfg(feature = "std")]
impl fmt::Display for StreamError {
    fn fmt(&self, f: &mut fmt::Formatter<'_>) -> fmt::Result {
        match self {
            StreamError::Stream(e) => fmt::Display::fmt(e, f),
            StreamError::Refused(e) => fmt::Display::fmt(e, f),
        }
    }
}

#[cfg(feature = "std")]
impl error::Error for StreamError {
    fn source(&self) -> Option<&(dyn error::Error + 'static)> {
        match self {
            StreamError::Stream(e) => e.source(),
            StreamError::Refused(_) => None,
        }
    }
}

#[cfg(feature = "std")]
impl From<Error> for StreamError {
    fn from(e: Error) -> Self {
        StreamError::Refused(e)
    }
}

#[cfg(feature = "std")]
impl From<io::Error> for StreamError {
    fn from(e: io::Error) -> Self {
        StreamError::Stream(e)
    }
}

/// [`Error::of_io`] leads back to a refusal, for which this allocates.
#[cfg(feature = "std")]
impl From<StreamError> for io::Error {
    fn from(e: StreamError) -> Self {
        match e {
            StreamError::Stream(e) => e,
            StreamError::Refused(e) => e.into(),
        }
    }
}

/// An allocation failed.
#[derive(Debug, Clone, Copy, PartialEq, Eq, Hash)]
pub struct OutOfMemory;

impl fmt::Display for OutOfMemory {
    fn fmt(&self, f: &mut fmt::Formatter<'_>) -> fmt::Result {
        write!(f, "out of memory")
    }
}

/// With the feature `std`.
#[cfg(feature = "std")]
impl error::Error for OutOfMemory {}

#[doc(hidden)]
impl From<AllocError> for OutOfMemory {
    fn from(_: AllocError) -> Self {
        OutOfMemory
    }
}

/// With the feature `std`.
#[cfg(feature = "std")]
impl From<OutOfMemory> for io::Error {
    fn from(_: OutOfMemory) -> Self {
        io::Error::from(io::ErrorKind::OutOfMemory)
    }
}
