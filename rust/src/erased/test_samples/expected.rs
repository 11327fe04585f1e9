// From crates/test_samples/src/expected.rt, by tools/erase.

//! A writer that expects bytes.

use crate::shim::io::{self, Write};

/// Compares the written bytes with others, and keeps nothing.
pub struct Expected<'a> {
    left: &'a [u8],
    /// Nothing was written.
    pub is_empty: bool,
    // Something else was written.
    is_other: bool,
}

impl<'a> Expected<'a> {
    /// Expects these bytes.
    pub fn new(bytes: &'a [u8]) -> Self {
        Expected {
            left: bytes,
            is_empty: true,
            is_other: false,
        }
    }

    /// A beginning of the bytes was written, and nothing else.
    pub fn is_beginning(&self) -> bool {
        !self.is_other
    }

    /// The bytes were written, and nothing else.
    pub fn is_whole(&self) -> bool {
        self.left.is_empty() && !self.is_other
    }
}

impl<'a> Write for Expected<'a> {
    fn write(&mut self, bytes: &[u8]) -> io::Result<usize> {
        self.is_empty = false;
        match self.left.strip_prefix(bytes) {
            Some(left) => self.left = left,
            None => self.is_other = true,
        }
        Ok(bytes.len())
    }

    fn flush(&mut self) -> io::Result<()> {
        Ok(())
    }
}
