// From crates/test_samples/src/interruptions.rt, by tools/erase.

//! A reader and a writer of which every other call is interrupted, and which know how many bytes are not flushed.

use crate::erased::test_samples::streams::{Source, Target};
use core::cell::Cell;
use crate::shim::io::{self, Error, ErrorKind, Read, Write};

/// Reads from its source. The first call and every second one after it are interrupted.
pub struct InterruptedSource<'a> {
    pub source: Source<'a>,
    pub was_interrupted: bool,
    /// The bytes that a writer has taken and not flushed.
    pub unflushed: &'a Cell<usize>,
    /// Some were not flushed when a call came.
    pub came_early: bool,
}

impl<'a> InterruptedSource<'a> {
    /// Gives its bytes one at a time, and then ends.
    pub fn of(bytes: &'a [u8], unflushed: &'a Cell<usize>) -> InterruptedSource<'a> {
        InterruptedSource {
            source: Source {
                most: 1,
                ..Source::of(bytes)
            },
            was_interrupted: false,
            unflushed,
            came_early: false,
        }
    }
}

impl<'a> Read for InterruptedSource<'a> {
    fn read(&mut self, buf: &mut [u8]) -> io::Result<usize> {
        if self.unflushed.get() > 0 {
            self.came_early = true;
        }
        self.was_interrupted = !self.was_interrupted;
        if self.was_interrupted {
            return Err(Error::from(ErrorKind::Interrupted));
        }
        self.source.read(buf)
    }
}

/// Writes to its target. The first write and every second one after it are interrupted.
pub struct InterruptedTarget<'a> {
    pub target: Target,
    pub was_interrupted: bool,
    /// The bytes that were taken and not flushed.
    pub unflushed: &'a Cell<usize>,
    /// How a flush fails, if it does.
    pub flush_error: Option<ErrorKind>,
}

impl<'a> Write for InterruptedTarget<'a> {
    fn write(&mut self, bytes: &[u8]) -> io::Result<usize> {
        self.was_interrupted = !self.was_interrupted;
        if self.was_interrupted {
            return Err(Error::from(ErrorKind::Interrupted));
        }
        let n = self.target.write(bytes)?;
        self.unflushed.set(self.unflushed.get().saturating_add(n));
        Ok(n)
    }

    fn flush(&mut self) -> io::Result<()> {
        if let Some(kind) = self.flush_error {
            return Err(Error::from(kind));
        }
        self.unflushed.set(0);
        Ok(())
    }
}
