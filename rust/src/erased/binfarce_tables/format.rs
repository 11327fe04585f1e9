// From crates/binfarce_tables/src/format.rt, by tools/erase.

//! The format of a file that is read at offsets.

use crate::erased::binfarce_tables::error::ReadError;
use crate::erased::binfarce_tables::opened::open;
use crate::erased::binfarce_bytes::format::{Format, detect_format};
use crate::erased::binfarce_bytes::source::Source;
use crate::shim::alloc::Global;

// How many of a file's first bytes name its format.
const MAGIC_LENGTH: u64 = 8;

/// The format of a file, as `detect_format` gives it. Its first 8 bytes are read, or all of a shorter file, and no
/// other byte.
///
/// # Errors
///
/// `Unreadable` if the source can't be read at offsets, or the read fails, and never for a source that can't fail,
/// such as bytes in memory; `OutOfMemory` if the allocation fails.
pub fn read_format<S: Source>(
    alloc: Global,
    source: &S,
    log: &mut S::Log,
) -> Result<Format, ReadError> {
    let opened = open(alloc, source)?;
    let head = opened.part(log, 0, MAGIC_LENGTH.min(opened.len))?;
    Ok(detect_format(&head))
}
