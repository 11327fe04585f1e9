// From crates/test_samples/src/lib.rt, by tools/erase.

//! Small executables, byte by byte, for tests of readers.

pub mod cases;
pub mod elf;
pub mod expected;
pub mod files;
pub mod interruptions;
pub mod macho;
pub mod pe;
pub mod streams;

use crate::shim::Vec;
use crate::shim::alloc::{AllocError, Global};

/// Other bytes for a file, and the offset of the first.
pub type Patch<'a> = (usize, &'a [u8]);

/// A copy of the file with other bytes at some offsets, of which those past its end count for nothing.
pub fn patched(alloc: Global, file: &[u8], patches: &[Patch<'_>]) -> Result<Vec<u8>, AllocError> {
    let mut copy = Vec::from_slice(alloc, file)?;
    for (offset, bytes) in patches {
        put(&mut copy, *offset, bytes);
    }
    Ok(copy)
}

/// The first bytes of a file, or all if it has fewer.
pub fn first_bytes(file: &[u8], count: usize) -> &[u8] {
    file.get(..count).unwrap_or(file)
}

// Writes the bytes from the offset on.
fn put(file: &mut Vec<u8>, offset: usize, bytes: &[u8]) {
    for i in 0..bytes.len() {
        put_byte(file, offset.saturating_add(i), bytes[i]);
    }
}

fn put_byte(file: &mut Vec<u8>, offset: usize, byte: u8) {
    if offset < file.len() {
        file[offset] = byte;
    }
}
