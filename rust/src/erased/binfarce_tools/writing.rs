// From crates/binfarce_tools/src/writing.rt, by tools/erase.

//! How a text is written whole.

use crate::erased::binfarce_tools::list::{ListError, Sink};

/// Writes the bytes in as many calls as the sink needs.
///
/// # Errors
///
/// `Write` if a write of the sink failed: a beginning of the bytes was taken.
pub fn write_whole<S: Sink>(out: &mut S, bytes: &[u8]) -> Result<(), ListError> {
    let mut at = 0;
    while at < bytes.len() {
        match out.write(&bytes[at..]) {
            None => return Err(ListError::Write),
            Some(n) => at += n,
        }
    }
    Ok(())
}
