// From crates/binfarce_text/src/streams.rt, by tools/erase.

//! Streams of bytes that are read in parts, and passed on.

use crate::shim::Vec;
use crate::shim::alloc::{AllocError, Global};
use crate::shim::error::Error;
use core::fmt;
use crate::shim::io::{ErrorKind, Read};

// How many bytes are taken at a time: what they make is in memory at once.
const STEP: usize = 512;

// An output of so many bytes is written before more is taken.
const LONG: usize = 1 << 16;

/// Why a stream was not passed to its end.
#[derive(Debug, Clone, Copy, PartialEq)]
pub enum StreamError {
    /// The reader failed.
    Read,
    /// A write failed.
    Write,
    /// An allocation failed.
    OutOfMemory,
}

impl fmt::Display for StreamError {
    fn fmt(&self, f: &mut fmt::Formatter<'_>) -> fmt::Result {
        match self {
            StreamError::Read => write!(f, "read failed"),
            StreamError::Write => write!(f, "write failed"),
            StreamError::OutOfMemory => write!(f, "out of memory"),
        }
    }
}

impl Error for StreamError {}

impl From<AllocError> for StreamError {
    fn from(_: AllocError) -> Self {
        StreamError::OutOfMemory
    }
}

/// Takes a text in parts, makes an output for it, and writes that to `O`.
pub trait Pass<O> {
    /// Takes the next part, and appends the output so far to `out`. Don't go on after an error.
    fn take(&mut self, part: &[u8], out: &mut Vec<u8>) -> Result<(), AllocError>;

    /// Finishes a text that ended, or breaks off one whose reader failed (`ended` is false), and appends the remaining
    /// output to `out`.
    fn end(&mut self, ended: bool, out: &mut Vec<u8>) -> Result<(), AllocError>;

    /// Writes the bytes in as many calls as needed.
    fn write(output: &mut O, bytes: &[u8]) -> Result<(), StreamError>;
}

/// Passes a stream: writes what the pass makes of all that the reader gives, of so many bytes at a time. The output for
/// each part is written before the next is read. A read that was interrupted is tried again.
///
/// # Errors
///
/// `Read` if the reader failed: what came before is passed. `Write` if a write failed, and `OutOfMemory` if an
/// allocation did: a beginning of the output was written.
pub fn pass_stream<R: Read, O, P: Pass<O>>(
    alloc: Global,
    pass: &mut P,
    size: usize,
    input: &mut R,
    output: &mut O,
) -> Result<(), StreamError> {
    let mut chunk = Vec::filled(alloc, 0, size)?;
    let mut out = Vec::new(alloc);
    let ended = pass_all(pass, chunk.as_mut_slice(), &mut out, input, output)?;
    out.clear();
    pass.end(ended, &mut out)?;
    P::write(output, out.as_slice())?;
    if ended {
        Ok(())
    } else {
        Err(StreamError::Read)
    }
}

// Passes all that the reader gives. Returns `false` if the reader failed.
fn pass_all<R: Read, O, P: Pass<O>>(
    pass: &mut P,
    chunk: &mut [u8],
    out: &mut Vec<u8>,
    input: &mut R,
    output: &mut O,
) -> Result<bool, StreamError> {
    for _ in 0..u64::MAX {
        match input.read(chunk) {
            Ok(0) => return Ok(true),
            Ok(n) => pass_part(pass, &chunk[..n], out, output)?,
            Err(e) => {
                if e.kind() != ErrorKind::Interrupted {
                    return Ok(false);
                }
            }
        }
    }
    Ok(false)
}

// Passes the next part, a few bytes at a time.
fn pass_part<O, P: Pass<O>>(
    pass: &mut P,
    part: &[u8],
    out: &mut Vec<u8>,
    output: &mut O,
) -> Result<(), StreamError> {
    out.clear();
    let mut at = 0;
    while at < part.len() {
        let end = part.len().min(at + STEP);
        pass_step(pass, &part[at..end], end == part.len(), out, output)?;
        at = end;
    }
    Ok(())
}

// Takes the next bytes, and writes the output if these are the last ones or it is long; else it waits in `out`, if
// some may wait before.
fn pass_step<O, P: Pass<O>>(
    pass: &mut P,
    bytes: &[u8],
    are_last: bool,
    out: &mut Vec<u8>,
    output: &mut O,
) -> Result<(), StreamError> {
    pass.take(bytes, out)?;
    if !are_last && out.len() < LONG {
        return Ok(());
    }
    P::write(output, out.as_slice())?;
    out.clear();
    Ok(())
}
