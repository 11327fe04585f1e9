// From crates/binfarce_sections/src/error.rt, by tools/erase.

//! Why sections can't be listed, or a section's bytes can't be given.

use crate::erased::binfarce::ParseError;
use crate::erased::binfarce_tables::ReadError;
use crate::erased::binfarce_tools::list::ListError;
use crate::shim::alloc::AllocError;
use crate::shim::error::Error;
use core::fmt;

/// Why the sections of a file were not listed, or the bytes of one were not given.
#[derive(Debug, PartialEq)]
pub enum SectionError {
    /// The file's first bytes name no supported format.
    Unknown,
    /// The reader of the file's format refused it before the section was found, or before the last one was listed.
    Parse(ParseError),
    /// The file has no section of this name.
    NoSection,
    /// The section has no bytes in the file.
    NoBytes,
    /// The section's bytes end past the file.
    PastEnd,
    /// An allocation failed.
    OutOfMemory,
    /// A write of the sink failed. It took a beginning of the output.
    Write,
    /// The source can't be read at offsets, or a read of it failed, for instance because it became shorter. Never
    /// for bytes in memory.
    Unreadable,
}

impl fmt::Display for SectionError {
    /// The errors of `list` have its text.
    fn fmt(&self, f: &mut fmt::Formatter<'_>) -> fmt::Result {
        match self {
            SectionError::Unknown => write!(f, "{}", ListError::Unknown),
            SectionError::Parse(e) => write!(f, "{e}"),
            SectionError::NoSection => write!(f, "no section of this name"),
            SectionError::NoBytes => write!(f, "section has no bytes in the file"),
            SectionError::PastEnd => write!(f, "section reaches past the end of the file"),
            SectionError::OutOfMemory => write!(f, "{}", ListError::OutOfMemory),
            SectionError::Write => write!(f, "{}", ListError::Write),
            SectionError::Unreadable => write!(f, "cannot read file"),
        }
    }
}

impl Error for SectionError {}

impl From<ParseError> for SectionError {
    fn from(e: ParseError) -> Self {
        SectionError::Parse(e)
    }
}

impl From<AllocError> for SectionError {
    fn from(_: AllocError) -> Self {
        SectionError::OutOfMemory
    }
}

impl From<ReadError> for SectionError {
    /// A refusal becomes `Parse`.
    fn from(e: ReadError) -> Self {
        match e {
            ReadError::Refused(e) => SectionError::Parse(e),
            ReadError::Unreadable => SectionError::Unreadable,
            ReadError::OutOfMemory => SectionError::OutOfMemory,
        }
    }
}
