//! Readers, and standard streams without a buffer.

#[cfg(feature = "std")]
use super::HostRuntime;
use super::vec::Vec;
#[cfg(not(feature = "std"))]
pub use super::without_std::io::{Error, ErrorKind, Result, Write};
#[cfg(feature = "std")]
pub use std::io::{Error, ErrorKind, Result, Write};

/// What bytes are read from.
pub trait Read {
    /// Reads some of the bytes that are left into the buffer, and gives how many. 0 is the end, or an empty buffer.
    fn read(&mut self, buf: &mut [u8]) -> Result<usize>;

    /// Reads what is left to the end of `bytes`, and gives how much it is. A read that was interrupted is tried again.
    fn read_to_end(&mut self, bytes: &mut Vec<u8>) -> Result<usize> {
        let start = bytes.len();
        let mut len = start;
        loop {
            if bytes.len() == len {
                bytes.reserve(1 << 13)?;
                bytes.resize(bytes.capacity(), 0)?;
            }
            let read = self.read(&mut bytes[len..]);
            match read {
                Ok(0) => break,
                Ok(n) => len += n,
                Err(e) if e.kind() == ErrorKind::Interrupted => {}
                Err(e) => {
                    bytes.truncate(len);
                    return Err(e);
                }
            }
        }
        bytes.truncate(len);
        Ok(len - start)
    }
}

#[cfg(feature = "std")]
impl<R: std::io::Read> Read for R {
    fn read(&mut self, buf: &mut [u8]) -> Result<usize> {
        std::io::Read::read(self, buf)
    }
}

/// Standard input. std's buffer is passed by where at least as much as it holds is asked for.
#[cfg(feature = "std")]
pub struct Stdin;

#[cfg(feature = "std")]
impl std::io::Read for Stdin {
    fn read(&mut self, buf: &mut [u8]) -> Result<usize> {
        #[cfg(test)]
        return std::io::Read::read(&mut super::test::Input, buf);
        #[cfg(not(test))]
        std::io::Read::read(&mut std::io::stdin(), buf)
    }
}

/// A writer that is flushed after each write.
#[cfg(feature = "std")]
pub(super) struct Unbuffered<W>(pub(super) W);

#[cfg(feature = "std")]
impl<W: Write> Write for Unbuffered<W> {
    fn write(&mut self, bytes: &[u8]) -> Result<usize> {
        let taken = self.0.write(bytes)?;
        self.0.flush()?;
        Ok(taken)
    }

    fn flush(&mut self) -> Result<()> {
        self.0.flush()
    }
}

/// Standard output, without a buffer.
#[cfg(feature = "std")]
pub fn writer(_: &HostRuntime) -> impl Write {
    #[cfg(test)]
    return Unbuffered(super::test::Output);
    #[cfg(not(test))]
    Unbuffered(std::io::stdout())
}
