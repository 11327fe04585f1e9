// From crates/binfarce_v0_state/src/disambiguators.rt, by tools/erase.

//! Crates' disambiguators as they are shown.

use crate::erased::binfarce_text::digits::hex_digit;

/// Writes a disambiguator at the end of the 18 bytes; returns the index of its first byte.
#[cfg_attr(not(debug_assertions), inline(always))]
pub fn put_disambiguator(shown: &mut [u8], n: u64) -> usize {
    shown[17] = b']';
    let mut rest = n;
    let mut at = 16;
    while rest >= 16 {
        shown[at] = hex_digit(rest % 16);
        rest /= 16;
        at -= 1;
    }
    shown[at] = hex_digit(rest);
    shown[at - 1] = b'[';
    at - 1
}
