// From crates/binfarce_tables/src/beginning.rt, by tools/erase.

//! The beginning of a Mach-O or PE file, from which its sections are read.

use crate::shim::Vec;

/// A prefix of a file, in memory, that has all of the file's sections, and the file's length.
pub struct Beginning {
    pub(crate) bytes: Vec<u8>,
    pub(crate) file_length: u64,
}

impl Beginning {
    /// The file's first bytes.
    pub fn bytes(&self) -> &[u8] {
        self.bytes.as_slice()
    }

    /// How many bytes the file had when they were read.
    pub fn file_length(&self) -> u64 {
        self.file_length
    }
}
