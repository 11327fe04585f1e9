// From crates/binfarce_tables/src/opened.rt, by tools/erase.

//! A file that is read at offsets.

use crate::shim::Vec;
use crate::erased::binfarce_tables::error::ReadError;
use crate::erased::binfarce_bytes::ParseError;
use crate::erased::binfarce_bytes::parser::to_index;
use crate::erased::binfarce_bytes::source::{Source, read_part};
use crate::shim::alloc::Global;
use crate::shim::io;

/// A source that is read at offsets.
pub struct Opened<'a, S> {
    /// The allocator of what is read of it.
    pub alloc: Global,
    /// The source itself.
    pub source: &'a S,
    /// Its length in bytes.
    pub len: u64,
}

/// Asks for the source's length, as every reading does first. Nothing is allocated.
///
/// # Errors
///
/// That of the source, which can't be read at offsets; never of a source that can't fail, such as bytes in memory.
pub fn open<S: Source>(alloc: Global, source: &S) -> io::Result<Opened<'_, S>> {
    let len = source.length()?;
    Ok(Opened { alloc, source, len })
}

impl<S: Source> Opened<'_, S> {
    // The bytes of a range that lies in the file.
    pub(crate) fn part(
        &self,
        log: &mut S::Log,
        offset: u64,
        size: u64,
    ) -> Result<Vec<u8>, ReadError> {
        part(self.alloc, self.source, log, offset, size)
    }

    /// The `size` bytes of the file from the offset on, in memory of that size. No other byte is read.
    ///
    /// # Errors
    ///
    /// `Refused` with `UnexpectedEof` if they don't all lie in the file; `Unreadable` if a read of the source
    /// fails, and never for a source that can't fail, such as bytes in memory; `OutOfMemory` if the allocation fails.
    pub fn within(&self, log: &mut S::Log, offset: u64, size: u64) -> Result<Vec<u8>, ReadError> {
        if offset > self.len || size > self.len - offset {
            return Err(ReadError::Refused(ParseError::UnexpectedEof));
        }
        self.part(log, offset, size)
    }
}

/// The `size` bytes of a file from the offset on, in memory of that size.
///
/// # Errors
///
/// `Unreadable` if a read of the source fails, for instance where it ends before `offset + size` (an opened file
/// doesn't fail where `size` is 0). `OutOfMemory` if the allocation fails, and where `size` exceeds `usize`.
pub fn part<S: Source>(
    alloc: Global,
    source: &S,
    log: &mut S::Log,
    offset: u64,
    size: u64,
) -> Result<Vec<u8>, ReadError> {
    Ok(read_part(alloc, source, log, offset, to_index(size))?)
}
