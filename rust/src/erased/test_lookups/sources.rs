// From crates/test_lookups/src/sources.rt, by tools/erase.

//! A source that counts its calls, and fails if a test says so.

use crate::erased::binfarce_bytes::source::Source;
use core::cell::RefCell;
use crate::shim::io::{self, Error, ErrorKind};

/// An offset and a size.
pub(crate) type Part = (u64, u64);

/// Bytes in memory, and how many calls came.
pub(crate) struct Faulty<'a> {
    pub(crate) bytes: &'a [u8],
    /// The length that it says it has.
    pub(crate) length: u64,
    /// The parts outside which no byte is given, if that is so.
    pub(crate) given: Option<&'a [Part]>,
    /// The part whose bytes are not given either, if no other part has them.
    pub(crate) withheld: Option<usize>,
    /// How many calls are answered before all fail, and how they fail.
    pub(crate) answered: usize,
    pub(crate) error: ErrorKind,
    pub(crate) calls: RefCell<usize>,
}

impl<'a> Faulty<'a> {
    /// Gives all bytes.
    pub(crate) fn of(bytes: &'a [u8]) -> Faulty<'a> {
        Faulty {
            bytes,
            length: bytes.len() as u64,
            given: None,
            withheld: None,
            answered: usize::MAX,
            error: ErrorKind::Other,
            calls: RefCell::new(0),
        }
    }

    fn count_call(&self) -> io::Result<()> {
        if let Ok(mut calls) = self.calls.try_borrow_mut() {
            *calls = calls.saturating_add(1);
            if *calls <= self.answered {
                return Ok(());
            }
        }
        Err(Error::from(self.error))
    }

    fn gives(&self, at: u64) -> bool {
        match self.given {
            None => true,
            Some(parts) => has(parts, self.withheld, at),
        }
    }
}

// Whether one of these parts, but for the withheld one, has the byte at this offset.
fn has(parts: &[Part], withheld: Option<usize>, at: u64) -> bool {
    for i in 0..parts.len() {
        let (start, size) = parts[i];
        if Some(i) != withheld && at >= start && at - start < size {
            return true;
        }
    }
    false
}

impl<'a> Source for Faulty<'a> {
    type Log = ();

    fn length(&self) -> io::Result<u64> {
        self.count_call()?;
        Ok(self.length)
    }

    fn fill_at(&self, log: &mut (), offset: u64, buf: &mut [u8]) -> io::Result<()> {
        self.count_call()?;
        for at in offset..offset.saturating_add(buf.len() as u64) {
            if !self.gives(at) {
                return Err(Error::from(self.error));
            }
        }
        self.bytes.fill_at(log, offset, buf)
    }
}
