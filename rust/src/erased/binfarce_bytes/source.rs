// From crates/binfarce_bytes/src/source.rt, by tools/erase.

//! Sources that are read at offsets: a file, or bytes in memory.

use crate::shim::Vec;
use crate::erased::binfarce_bytes::parser::to_index;
use crate::shim::alloc::Global;
use crate::shim::fs::File;
use crate::shim::io::{self, Error, ErrorKind};

/// A source that is read at offsets.
pub trait Source {
    /// A log of the parts that it was asked for; `()` if none is kept.
    type Log;

    /// Its length in bytes. An error if it can't be read at offsets.
    fn length(&self) -> io::Result<u64>;

    /// Fills the buffer with the bytes from the offset on. An error if they end before the buffer is full.
    fn fill_at(&self, log: &mut Self::Log, offset: u64, buf: &mut [u8]) -> io::Result<()>;
}

impl Source for File {
    type Log = ();

    /// `Unsupported` if it isn't a regular file.
    fn length(&self) -> io::Result<u64> {
        let metadata = self.metadata()?;
        if metadata.is_file() {
            Ok(metadata.len())
        } else {
            Err(Error::from(ErrorKind::Unsupported))
        }
    }

    fn fill_at(&self, _log: &mut (), offset: u64, buf: &mut [u8]) -> io::Result<()> {
        self.read_exact_at(buf, offset)
    }
}

impl Source for &[u8] {
    type Log = ();

    fn length(&self) -> io::Result<u64> {
        Ok(self.len() as u64)
    }

    fn fill_at(&self, _log: &mut (), offset: u64, buf: &mut [u8]) -> io::Result<()> {
        match self.get(to_index(offset)..) {
            Some(rest) if buf.len() <= rest.len() => {
                buf.copy_from_slice(&rest[..buf.len()]);
                Ok(())
            }
            _ => Err(Error::from(ErrorKind::UnexpectedEof)),
        }
    }
}

/// The `size` bytes from the offset on, in memory of that size.
///
/// Fails with the source's error, and with `OutOfMemory` if the allocation fails.
pub fn read_part<S: Source>(
    alloc: Global,
    source: &S,
    log: &mut S::Log,
    offset: u64,
    size: usize,
) -> io::Result<Vec<u8>> {
    let mut bytes = Vec::with_capacity(alloc, size)?;
    bytes.resize(size, 0)?;
    source.fill_at(log, offset, &mut bytes)?;
    Ok(bytes)
}
