// From crates/binfarce_c/src/buffer.rt, by tools/erase.

//! Texts in a caller's buffer of any length.

use crate::erased::binfarce_c::status::OK;

/// What a call that gives a text returns: `struct binfarce_text`.
#[repr(C)]
pub struct Text {
    /// How the call ended.
    pub status: u32,
    /// For `BINFARCE_UNEXPECTED_SECTION_TYPE` the type that was found, and else 0.
    pub detail: u32,
    /// The whole length of the text in bytes, however much of it the buffer had room for.
    pub length: usize,
}

/// Gives a text: as much of it as the buffer has room for, and its whole length.
pub(crate) fn give(text: &[u8], out: &mut [u8]) -> Text {
    put(text, out);
    Text {
        status: OK,
        detail: 0,
        length: text.len(),
    }
}

/// Ends a text in a buffer with a NUL, and returns where that is. See `binfarce.h`.
pub fn binfarce_terminate(out: &mut [u8], length: usize) -> usize {
    let end = length.min(out.len().saturating_sub(1));
    if end < out.len() {
        out[end] = 0;
    }
    end
}

/// Writes as much as has room into a buffer. The rest of the buffer is unchanged.
pub(crate) fn put<T: Copy>(given: &[T], out: &mut [T]) {
    let count = given.len().min(out.len());
    out[..count].copy_from_slice(&given[..count]);
}
