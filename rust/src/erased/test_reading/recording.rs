// From crates/test_reading/src/recording.rt, by tools/erase.

//! A source that records the parts that it is asked for.

use crate::shim::Vec;
use crate::erased::binfarce_bytes::functions::Selection;
use crate::erased::binfarce_bytes::source::Source;
use crate::erased::binfarce_tables::ReadError;
use crate::erased::binfarce_tools::SymbolTable;
use crate::erased::binfarce_tools::tables::{Tables, read};
use crate::shim::alloc::{AllocError, Global};
use crate::shim::io;

/// A part of a file: an offset and a size, in bytes.
#[derive(Clone, Copy)]
pub struct LoggedPart {
    pub offset: u64,
    pub size: u64,
}

/// A file in memory that is read at offsets, and records each part that it is asked for before it gives the part. A read
/// fails also if the log can't grow.
#[derive(Clone, Copy)]
pub struct Recorded<'a> {
    pub file: &'a [u8],
}

impl<'a> Source for Recorded<'a> {
    type Log = Vec<LoggedPart>;

    fn length(&self) -> io::Result<u64> {
        self.file.length()
    }

    fn fill_at(&self, log: &mut Vec<LoggedPart>, offset: u64, buf: &mut [u8]) -> io::Result<()> {
        record(log, offset, buf.len())?;
        self.file.fill_at(&mut (), offset, buf)
    }
}

// Appends a part to the log.
fn record(log: &mut Vec<LoggedPart>, offset: u64, size: usize) -> Result<(), AllocError> {
    log.push(LoggedPart {
        offset,
        size: size as u64,
    })?;
    Ok(())
}

/// Reads the tables of a file for the function symbols of a selection, and returns the log of the reading: the parts
/// that were asked for, in order. Each is one of the parts that its format defines, and nothing else was read.
pub fn read_recorded(
    alloc: Global,
    file: &[u8],
    which: SymbolTable,
    selection: Selection<'_>,
) -> (Result<Tables<'static>, ReadError>, Vec<LoggedPart>) {
    let mut log = Vec::new(alloc);
    let tables = read(alloc, &Recorded { file }, &mut log, which, selection);
    (tables, log)
}
