// From crates/binfarce_frames/src/lib.rt, by tools/erase.

//! The frames of call chains in a text of perf-script(1).

use crate::shim::Vec;
use crate::shim::alloc::{AllocError, Global};

// How many bytes of a line are looked at. A longer one is no frame.
const LONGEST: usize = 4096;

/// A text that comes byte by byte, with the offset of each frame after its file.
pub struct Frames<'a> {
    // The names of the files.
    names: &'a [&'a [u8]],
    // The line so far.
    line: Vec<u8>,
    // Whether a parenthesis is held back, which may end the line.
    is_held: bool,
}

impl<'a> Frames<'a> {
    /// Nothing of a text so far, in which frames may be in files of these names.
    pub fn new(alloc: Global, names: &'a [&'a [u8]]) -> Frames<'a> {
        Frames {
            names,
            line: Vec::new(alloc),
            is_held: false,
        }
    }

    /// Takes the next part of the text, and appends what is decided: all but a parenthesis at its end.
    ///
    /// # Errors
    ///
    /// `AllocError` if an allocation failed: `out` is then unspecified.
    pub fn take(&mut self, part: &[u8], out: &mut Vec<u8>) -> Result<(), AllocError> {
        for byte in part {
            self.push(*byte, out)?;
        }
        Ok(())
    }

    // Takes the next byte, and appends what is decided.
    fn push(&mut self, byte: u8, out: &mut Vec<u8>) -> Result<(), AllocError> {
        self.release(byte == b'\n', out)?;
        if byte == b')' {
            self.is_held = true;
            return Ok(());
        }
        out.push(byte)?;
        self.go_on(byte)?;
        Ok(())
    }

    /// Ends the text, and appends the rest of it.
    ///
    /// # Errors
    ///
    /// `AllocError` if an allocation failed: `out` is then unspecified.
    pub fn end(&mut self, out: &mut Vec<u8>) -> Result<(), AllocError> {
        self.release(true, out)?;
        Ok(())
    }

    // Appends the parenthesis that is held back, which ends the line or doesn't.
    fn release(&mut self, is_end: bool, out: &mut Vec<u8>) -> Result<(), AllocError> {
        if !self.is_held {
            return Ok(());
        }
        push_offset(self.names, &self.line, is_end, out)?;
        out.push(b')')?;
        self.is_held = false;
        self.go_on(b')')?;
        Ok(())
    }

    // The line goes on with this byte, or ends with it.
    fn go_on(&mut self, byte: u8) -> Result<(), AllocError> {
        if byte == b'\n' {
            self.line.clear();
        } else if self.line.len() < LONGEST {
            self.line.push(byte)?;
        }
        Ok(())
    }
}

// Appends the offset that comes before a parenthesis in a line that begins so, and that this one ends or doesn't.
fn push_offset(
    names: &[&[u8]],
    line: &[u8],
    is_end: bool,
    out: &mut Vec<u8>,
) -> Result<(), AllocError> {
    if is_end && begins_frame(line) && is_of(names, line) {
        out.extend_from_slice(b"+0x")?;
        out.extend_from_slice(number_in(line))?;
    }
    Ok(())
}

// Whether a line ends with the name of one of the files.
fn is_of(names: &[&[u8]], line: &[u8]) -> bool {
    for name in names {
        if line.ends_with(name) {
            return true;
        }
    }
    false
}

// Whether a line that begins so is a frame.
fn begins_frame(line: &[u8]) -> bool {
    let rest = unindented(line);
    let digits = digits_len(rest);
    if line.is_empty() || line.len() >= LONGEST {
        return false;
    }
    if line[0] != b'\t' || digits == 0 || digits > 16 || digits == rest.len() {
        return false;
    }
    is_blank(rest[digits])
}

// The number of a frame.
fn number_in(line: &[u8]) -> &[u8] {
    let rest = unindented(line);
    &rest[..digits_len(rest)]
}

// What follows the blanks at the beginning of a line.
fn unindented(line: &[u8]) -> &[u8] {
    &line[blanks_len(line)..]
}

// How many blanks and tabs the text begins with.
fn blanks_len(text: &[u8]) -> usize {
    text.iter().take_while(|b| is_blank(**b)).count()
}

fn is_blank(byte: u8) -> bool {
    byte == b' ' || byte == b'\t'
}

// How many hexadecimal digits the text begins with.
fn digits_len(text: &[u8]) -> usize {
    text.iter().take_while(|b| b.is_ascii_hexdigit()).count()
}
