// From crates/binfarce_tables/src/error.rt, by tools/erase.

//! Why a file's parts were not read.

use crate::erased::binfarce_bytes::ParseError;
use crate::shim::alloc::AllocError;
use crate::shim::io::{self, ErrorKind};

/// Why a file's parts were not read.
#[derive(Debug, Clone, Copy, PartialEq)]
pub enum ReadError {
    /// The file is refused, with the error of a reader of the whole file.
    Refused(ParseError),
    /// The file can't be read at offsets, or a read of it failed, for instance because it became shorter.
    Unreadable,
    /// An allocation failed.
    OutOfMemory,
}

impl From<io::Error> for ReadError {
    /// A failed allocation becomes `OutOfMemory`, and any other error becomes `Unreadable`.
    fn from(e: io::Error) -> Self {
        match e.kind() {
            ErrorKind::OutOfMemory => ReadError::OutOfMemory,
            _ => ReadError::Unreadable,
        }
    }
}

impl From<ParseError> for ReadError {
    fn from(e: ParseError) -> Self {
        ReadError::Refused(e)
    }
}

impl From<AllocError> for ReadError {
    fn from(_: AllocError) -> Self {
        ReadError::OutOfMemory
    }
}
