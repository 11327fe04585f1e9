// From crates/binfarce_io/src/output.rt, by tools/erase.

//! The output of a command: a sink that writes a heading before the first byte that follows it.

use crate::shim::Vec;
use crate::erased::binfarce_io::fault::Fault;
use crate::erased::binfarce_tools::list::Sink;
use crate::erased::binfarce_tools::report::ReportError;
use crate::shim::alloc::Global;
use crate::shim::io::{self, Error, ErrorKind, Write};

/// A sink over a writer. A heading is written with the first byte after it, or never. The system's reason is kept where
/// a write fails.
pub struct Output<W> {
    writer: W,
    heading: Vec<u8>,
    // How much of the heading is written.
    done: usize,
    reason: Option<Error>,
}

impl<W: Write> Output<W> {
    /// A sink over this writer, with no heading.
    pub fn new(alloc: Global, writer: W) -> Output<W> {
        Output {
            writer,
            heading: Vec::new(alloc),
            done: 0,
            reason: None,
        }
    }

    /// Begins a part with this heading.
    pub fn begin(&mut self, heading: Vec<u8>) {
        self.heading = heading;
        self.done = 0;
    }

    /// Writes the rest of the heading.
    ///
    /// # Errors
    ///
    /// `Write` if a write fails.
    pub fn end(&mut self) -> Result<(), Fault> {
        while self.done < self.heading.len() {
            match self.writer.write(&self.heading[self.done..]) {
                Ok(n) if n > 0 => self.done += n,
                Ok(_) => {
                    self.reason = Some(Error::from(ErrorKind::WriteZero));
                    return Err(Fault::Report(ReportError::Write));
                }
                Err(e) => {
                    self.reason = Some(e);
                    return Err(Fault::Report(ReportError::Write));
                }
            }
        }
        Ok(())
    }

    /// The writer, and the reason of the last failed write, if any.
    pub fn into_parts(self) -> (W, Option<Error>) {
        (self.writer, self.reason)
    }
}

impl<W: Write> Sink for Output<W> {
    fn write(&mut self, bytes: &[u8]) -> Option<usize> {
        self.end().ok()?;
        match self.writer.write(bytes) {
            Ok(n) if n > 0 => Some(n),
            Ok(_) => {
                self.reason = Some(Error::from(ErrorKind::WriteZero));
                None
            }
            Err(e) => {
                self.reason = Some(e);
                None
            }
        }
    }

    fn failed(&self) -> bool {
        self.reason.is_some()
    }
}

/// Writes without a heading.
impl<W: Write> Write for Output<W> {
    fn write(&mut self, bytes: &[u8]) -> io::Result<usize> {
        match self.writer.write(bytes) {
            Ok(n) => Ok(n),
            Err(e) => {
                let kind = e.kind();
                self.reason = Some(e);
                Err(Error::from(kind))
            }
        }
    }

    fn flush(&mut self) -> io::Result<()> {
        match self.writer.flush() {
            Ok(()) => Ok(()),
            Err(e) => {
                let kind = e.kind();
                self.reason = Some(e);
                Err(Error::from(kind))
            }
        }
    }
}
