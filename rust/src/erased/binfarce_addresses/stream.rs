// From crates/binfarce_addresses/src/stream.rt, by tools/erase.

//! Addresses that come as the lines of a text.

use crate::shim::{TrimmedAscii, Vec};
use crate::erased::binfarce_addresses::at::Places;
use crate::erased::binfarce_addresses::counts::Counts;
use crate::erased::binfarce_addresses::lookup::Lookup;
use crate::erased::binfarce_addresses::names::Names;
use crate::erased::binfarce_rows::address::parse_address;
pub use crate::erased::binfarce_text::streams::StreamError;
use crate::erased::binfarce_text::streams::{Pass, pass_stream};
use crate::erased::binfarce_tools::list::Sink;
use crate::erased::binfarce_tools::writing::write_whole;
use crate::shim::alloc::{AllocError, Global};
use crate::shim::io::Read;

/// How many bytes are read at a time: the names and ranges for these lines stay in the cache until they are written, and
/// the buffer is small enough that the allocator reuses it.
pub const CHUNK: usize = 1 << 13;

/// The most bytes of a word that is an address: `0x` and 16 digits.
pub const LONGEST: usize = 18;

/// How much of a text was answered.
#[derive(Debug, Clone, Copy, PartialEq)]
pub struct Answered {
    /// How many bytes its whole lines have, with their line feeds.
    pub len: usize,
    /// How many addresses they have, and how many of these were found.
    pub counts: Counts,
}

/// Appends to `text` the answers of the whole lines of `bytes`: the line of a line's address, as `Places::push_line`
/// gives it, or `??` for a line without an address. White space at both ends of a line is ignored.
///
/// # Errors
///
/// `AllocError` if an allocation failed: `text` is then unspecified.
pub fn push_lines(
    alloc: Global,
    places: &Places<'_>,
    lookup: Lookup<'_>,
    bytes: &[u8],
    text: &mut Vec<u8>,
) -> Result<Answered, AllocError> {
    let mut counts = Counts::new();
    let len = Names::new(alloc, places, lookup, 0)?.push_answers(bytes, &mut counts, text)?;
    Ok(Answered { len, counts })
}

impl Names<'_, '_> {
    // Appends to `text` the answers of the whole lines of `bytes`, counts them, and returns the length of these lines.
    // All addresses are looked up before the first answer is written, so that cache misses overlap.
    fn push_answers(
        &mut self,
        bytes: &[u8],
        counts: &mut Counts,
        text: &mut Vec<u8>,
    ) -> Result<usize, AllocError> {
        let (addresses, len) = addresses_of(self.alloc, bytes)?;
        let answers = self.answers_to(&addresses)?;
        self.read_ahead(&answers)?;
        for answer in &answers {
            self.push_line(text, *answer)?;
            counts.add(answer.reply());
        }
        Ok(len)
    }
}

// The addresses of the whole lines of `bytes`, or none, and the length of these lines.
fn addresses_of(alloc: Global, bytes: &[u8]) -> Result<(Vec<Option<u64>>, usize), AllocError> {
    let mut addresses = Vec::with_capacity(alloc, bytes.len() / 8)?;
    let mut len = 0;
    while let Some(line) = first_line(&bytes[len..]) {
        addresses.push(parse_address(line.trimmed_ascii()))?;
        len += line.len() + 1;
    }
    Ok((addresses, len))
}

// The bytes before the first line feed.
fn first_line(bytes: &[u8]) -> Option<&[u8]> {
    let len = bytes.iter().position(|byte| *byte == b'\n')?;
    Some(&bytes[..len])
}

/// Answers the lines of `input` until it ends, each as soon as its line feed has come, and returns how many addresses
/// they have, how many of these were found, and how many lines have none. The last line may have no line feed. A read
/// that was interrupted is tried again. Of an unfinished line at most 19 bytes are kept.
///
/// # Errors
///
/// `Read` if the reader fails: the whole lines before are answered. `Write` if a write failed, and `OutOfMemory`
/// if an allocation did: a beginning was written.
pub fn answer_lines<R: Read, S: Sink>(
    alloc: Global,
    places: &Places<'_>,
    lookup: Lookup<'_>,
    input: &mut R,
    out: &mut S,
) -> Result<Counts, StreamError> {
    let mut lines = Lines {
        alloc,
        names: Names::with_room(alloc, places, lookup)?,
        line: Vec::new(alloc),
        counts: Counts::new(),
    };
    pass_stream(alloc, &mut lines, CHUNK, input, out)?;
    Ok(lines.counts)
}

// What answers lines that come in parts.
struct Lines<'b, 'a> {
    alloc: Global,
    names: Names<'b, 'a>,
    // What is kept of the last line so far.
    line: Vec<u8>,
    counts: Counts,
}

impl Lines<'_, '_> {
    // Answers the whole lines of the kept text and the next part, and keeps the rest.
    fn push(&mut self, part: &[u8], out: &mut Vec<u8>) -> Result<(), AllocError> {
        self.line.extend_from_slice(part)?;
        let len = self.names.push_answers(&self.line, &mut self.counts, out)?;
        self.line = kept_of(self.alloc, &self.line[len..])?;
        Ok(())
    }
}

impl<S: Sink> Pass<S> for Lines<'_, '_> {
    fn take(&mut self, part: &[u8], out: &mut Vec<u8>) -> Result<(), AllocError> {
        self.push(part, out)
    }

    /// Answers the last line, if there is one, unless the text was broken off.
    fn end(&mut self, ended: bool, out: &mut Vec<u8>) -> Result<(), AllocError> {
        if !ended || self.line.is_empty() {
            return Ok(());
        }
        self.push(b"\n", out)
    }

    fn write(out: &mut S, bytes: &[u8]) -> Result<(), StreamError> {
        write_whole(out, bytes).map_err(|_| StreamError::Write)
    }
}

// The text that is kept of the first part of a line: no white space before the address, and at most one byte of it
// after. A line that is too long for an address is kept as one byte that no address has.
fn kept_of(alloc: Global, line: &[u8]) -> Result<Vec<u8>, AllocError> {
    let begun = line.trimmed_ascii_start();
    if begun.is_empty() {
        return Vec::from_slice(alloc, &line[..line.len().min(1)]);
    }
    let len = begun.trimmed_ascii_end().len();
    if len > LONGEST {
        return Vec::from_slice(alloc, b"?");
    }
    Vec::from_slice(alloc, &begun[..begun.len().min(len + 1)])
}
