// From crates/binfarce_bytes/src/error.rt, by tools/erase.

//! Why a file could not be read.

use crate::erased::binfarce_bytes::parser::UnexpectedEof;
use crate::shim::alloc::AllocError;
use crate::shim::error::Error;
use core::fmt;
use core::num::TryFromIntError;

/// Why a file could not be read.
#[derive(Debug, Clone, Copy, PartialEq, Eq, Hash)]
pub enum ParseError {
    /// No section has the requested name.
    SymbolsSectionIsMissing,
    /// The named section, which the symbols need, is missing.
    SectionIsMissing(&'static str),
    /// A section has the wrong type.
    UnexpectedSectionType {
        /// The required type (`sh_type`).
        expected: u32,
        /// Its type.
        actual: u32,
    },
    /// A number in the file is invalid.
    MalformedInput,
    /// The file is truncated.
    UnexpectedEof,
    /// An allocation failed.
    OutOfMemory,
}

impl fmt::Display for ParseError {
    fn fmt(&self, f: &mut fmt::Formatter<'_>) -> fmt::Result {
        match self {
            ParseError::SymbolsSectionIsMissing => write!(f, "symbols section is missing"),
            ParseError::SectionIsMissing(name) => write!(f, "section {name} is missing"),
            ParseError::UnexpectedSectionType { expected, actual } => {
                write!(f, "expected section type {expected} but found {actual}")
            }
            ParseError::MalformedInput => write!(f, "malformed input file"),
            ParseError::UnexpectedEof => write!(f, "unexpected end of file"),
            ParseError::OutOfMemory => write!(f, "out of memory"),
        }
    }
}

impl Error for ParseError {}

impl From<TryFromIntError> for ParseError {
    fn from(_: TryFromIntError) -> Self {
        ParseError::MalformedInput
    }
}

impl From<UnexpectedEof> for ParseError {
    fn from(_: UnexpectedEof) -> Self {
        ParseError::UnexpectedEof
    }
}

impl From<AllocError> for ParseError {
    fn from(_: AllocError) -> Self {
        ParseError::OutOfMemory
    }
}
