// From crates/test_samples/src/streams.rt, by tools/erase.

//! Readers and writers that are short or fail.

use crate::shim::Vec;
use crate::shim::alloc::Global;
use crate::shim::io::{self, ErrorKind, Read, Write};

/// Gives its bytes, at most `most` in a call, and then ends or fails.
pub struct Source<'a> {
    pub bytes: &'a [u8],
    pub most: usize,
    pub end: Option<ErrorKind>,
}

impl<'a> Source<'a> {
    /// Gives its bytes on demand, and then ends.
    pub fn of(bytes: &'a [u8]) -> Source<'a> {
        Source {
            bytes,
            most: usize::MAX,
            end: None,
        }
    }
}

impl<'a> Read for Source<'a> {
    fn read(&mut self, buf: &mut [u8]) -> io::Result<usize> {
        let n = buf.len().min(self.bytes.len()).min(self.most);
        if n == 0 {
            return match self.end {
                None => Ok(0),
                Some(kind) => Err(io::Error::from(kind)),
            };
        }
        buf[..n].copy_from_slice(&self.bytes[..n]);
        self.bytes = &self.bytes[n..];
        Ok(n)
    }
}

/// Takes up to `left` bytes, at most `most` in a call. A call that takes none is answered with 0, or fails.
pub struct Target {
    pub taken: Vec<u8>,
    pub left: usize,
    pub most: usize,
    pub end: Option<ErrorKind>,
}

impl Target {
    /// Takes all bytes, at most `most` in a call.
    pub fn taking(alloc: Global, most: usize) -> Target {
        Target {
            taken: Vec::new(alloc),
            left: usize::MAX,
            most,
            end: None,
        }
    }
}

impl Write for Target {
    fn write(&mut self, bytes: &[u8]) -> io::Result<usize> {
        let n = bytes.len().min(self.left).min(self.most);
        if n == 0 {
            return match self.end {
                None => Ok(0),
                Some(kind) => Err(io::Error::from(kind)),
            };
        }
        self.taken.extend_from_slice(&bytes[..n])?;
        self.left -= n;
        Ok(n)
    }

    fn flush(&mut self) -> io::Result<()> {
        Ok(())
    }
}
