// From crates/binfarce_calls/src/filter.rt, by tools/erase.

//! `binfarce filter [--full] [NAME..]`: demangles the names in a text.

use crate::shim::Vec;
use crate::shim::alloc::{AllocError, Global};

/// The names as the lines of a text.
pub fn lines_of(alloc: Global, names: &[&str]) -> Result<Vec<u8>, AllocError> {
    let mut text = Vec::new(alloc);
    for name in names {
        text.extend_from_slice(name.as_bytes())?;
        text.push(b'\n')?;
    }
    Ok(text)
}
