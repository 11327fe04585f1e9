// From crates/binfarce_legacy/src/runs.rt, by tools/erase.

//! Runs of a name's bytes that denote themselves, compared 16 at a time.

use crate::erased::binfarce_text::strides::{STRIDE, len_before};

// Whether a byte denotes itself.
#[cfg_attr(not(debug_assertions), inline(always))]
fn is_plain(b: u8) -> bool {
    b != b'.' && b != b'$'
}

// How many of 16 bytes denote themselves before the first that doesn't.
#[cfg_attr(not(debug_assertions), inline(always))]
fn plain_run(bytes: &[u8]) -> usize {
    len_before(bytes, b'.', b'$', b'$')
}

// The end of the run of bytes from `at` on that denote themselves. `wide` begins with the name, and has bytes after it.
// These are compared too, so that a name's last bytes needn't be taken one by one; they don't change the result.
#[cfg_attr(not(debug_assertions), inline(always))]
pub(crate) fn plain_end(name: &[u8], wide: &[u8], at: usize) -> usize {
    let mut end = at;
    while end < name.len() && wide.len() - end >= STRIDE {
        let run = plain_run(&wide[end..end + STRIDE]);
        if run < STRIDE {
            return (end + run).min(name.len());
        }
        end += STRIDE;
    }
    plain_end_slowly(name, end.min(name.len()))
}

// The same, one byte at a time.
fn plain_end_slowly(name: &[u8], at: usize) -> usize {
    let mut end = at;
    while end < name.len() && is_plain(name[end]) {
        end += 1;
    }
    end
}

// Whether a byte begins an escape, or is a `:`.
#[cfg_attr(not(debug_assertions), inline(always))]
fn is_mark(b: u8) -> bool {
    b == b'.' || b == b'$' || b == b':'
}

// Whether one of 16 bytes is such.
#[cfg_attr(not(debug_assertions), inline(always))]
fn has_mark_among(bytes: &[u8]) -> bool {
    len_before(bytes, b'.', b'$', b':') < STRIDE
}

// Whether a byte of a name is such.
#[cfg_attr(not(debug_assertions), inline(always))]
pub(crate) fn has_mark(name: &[u8]) -> bool {
    let mut at = 0;
    while name.len() - at >= STRIDE {
        if has_mark_among(&name[at..at + STRIDE]) {
            return true;
        }
        at += STRIDE;
    }
    has_mark_slowly(&name[at..])
}

// The same for fewer bytes.
#[cfg_attr(not(debug_assertions), inline(always))]
fn has_mark_slowly(bytes: &[u8]) -> bool {
    let mut found = false;
    for b in bytes {
        found |= is_mark(*b);
    }
    found
}
