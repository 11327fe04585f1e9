// From crates/binfarce_addresses/src/digits.rt, by tools/erase.

//! Numbers in hexadecimal digits.

use crate::shim::{Vec, to_usize};
use crate::erased::binfarce_text::digits::hex_digit;
use crate::shim::alloc::AllocError;

/// Appends an address and a blank to the text.
pub(crate) fn push_address(text: &mut Vec<u8>, address: u64) -> Result<(), AllocError> {
    text.extend_from_slice(&digits_of(address))?;
    Ok(text.push(b' ')?)
}

/// Appends an offset, as `+0x` and hexadecimal digits, and a byte to the text.
///
/// # Errors
///
/// `AllocError` if an allocation failed: the text is then unspecified.
#[cfg_attr(not(debug_assertions), inline(always))]
pub fn push_offset(text: &mut Vec<u8>, offset: u64, end: u8) -> Result<(), AllocError> {
    let zeros = to_usize((offset.leading_zeros() / 4).min(15));
    text.extend_from_slice(b"+0x")?;
    text.extend_from_slice(&digits_of(offset)[zeros..])?;
    Ok(text.push(end)?)
}

// The 16 digits of a number: the number of steps is fixed, so no branch is mispredicted.
fn digits_of(number: u64) -> [u8; 16] {
    let mut shown = [b'0'; 16];
    let mut rest = number;
    for k in 0..16 {
        shown[15 - k] = hex_digit(rest % 16);
        rest /= 16;
    }
    shown
}
