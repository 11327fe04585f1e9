// From crates/binfarce_rows/src/head.rt, by tools/erase.

//! The head of a line, before the name: the address and the size.

use crate::shim::String;
use crate::erased::binfarce_text::digits::hex_digit;
use crate::shim::alloc::AllocError;

/// Appends the head of a line to the text: `{address:016x} {size:>10} `.
///
/// # Errors
///
/// `AllocError` if an allocation failed. The text is then unspecified.
pub fn push_head(text: &mut String, address: u64, size: u64) -> Result<(), AllocError> {
    if size >= 10_000_000_000 {
        return write!(text, "{address:016x} {size:>10} ");
    }
    let mut head = [b' '; 28];
    put_head(&mut head, address, size);
    text.push_str(core::str::from_utf8(&head).unwrap())
}

// Puts an address and a size of at most 10 digits into 28 blanks.
#[cfg_attr(not(debug_assertions), inline(always))]
fn put_head(head: &mut [u8], address: u64, size: u64) {
    put_address(&mut head[..16], address);
    put_size(&mut head[17..27], size);
}

// Puts an address in 16 hexadecimal digits.
#[cfg_attr(not(debug_assertions), inline(always))]
fn put_address(digits: &mut [u8], address: u64) {
    let mut rest = address;
    let mut at = 16;
    while at > 0 {
        at -= 1;
        digits[at] = hex_digit(rest % 16);
        rest /= 16;
    }
}

// Puts a size in decimal, to the right of blanks.
#[cfg_attr(not(debug_assertions), inline(always))]
fn put_size(digits: &mut [u8], size: u64) {
    let mut rest = size;
    let mut at = 9;
    while rest >= 10 {
        digits[at] = b'0' + (rest % 10) as u8;
        rest /= 10;
        at -= 1;
    }
    digits[at] = b'0' + rest as u8;
}
