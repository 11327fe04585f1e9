// From crates/binfarce_bytes/src/text.rt, by tools/erase.

//! Texts at an offset, and texts in fixed-size fields.

/// The bytes up to the first NUL, or all if there is none; a slice of `bytes`.
pub fn up_to_nul(bytes: &[u8]) -> &[u8] {
    match find_nul(bytes) {
        None => bytes,
        Some(len) => &bytes[..len],
    }
}

/// The text from `start` to the first NUL, as a slice of `bytes`.
///
/// `None` if `start` is past the end, there is no NUL, the text is empty, or it isn't UTF-8.
pub fn parse_null_string(bytes: &[u8], start: usize) -> Option<&str> {
    text_from(bytes, start)
}

fn text_from(bytes: &[u8], start: usize) -> Option<&str> {
    match bytes.get(start..) {
        None => None,
        Some(rest) => match find_nul(rest) {
            None | Some(0) => None,
            Some(len) => utf8_text(&rest[..len]),
        },
    }
}

// How many bytes are compared at a time: first so many, and then fewer.
const STRIDE: usize = 32;

const LAST_STRIDE: usize = 8;

fn find_nul(bytes: &[u8]) -> Option<usize> {
    let far = past_strides(bytes, 0, STRIDE);
    let at = past_strides(bytes, far, LAST_STRIDE);
    match bytes[at..].iter().position(|b| *b == 0) {
        None => None,
        Some(i) => Some(at + i),
    }
}

// The offset after the strides from `start` on that have no NUL, if there is none before `start`.
#[cfg_attr(not(debug_assertions), inline(always))]
fn past_strides(bytes: &[u8], start: usize, stride: usize) -> usize {
    let mut at = start;
    while bytes.len() - at >= stride {
        if has_nul(&bytes[at..at + stride]) {
            break;
        }
        at += stride;
    }
    at
}

// Without an early exit, so that the comparisons are vectorized.
#[cfg_attr(not(debug_assertions), inline(always))]
fn has_nul(bytes: &[u8]) -> bool {
    let mut found = false;
    for b in bytes {
        found |= *b == 0;
    }
    found
}

/// The bytes as a text, without a copy; `None` if they aren't UTF-8.
pub fn utf8_text(bytes: &[u8]) -> Option<&str> {
    match core::str::from_utf8(bytes) {
        Ok(text) => Some(text),
        Err(_) => None,
    }
}
