// From crates/binfarce_text/src/strides.rt, by tools/erase.

//! Bytes that are compared 16 at once.

use crate::shim::to_usize;
use crate::shim::simd::prelude::*;

/// How many bytes are compared at once.
pub const STRIDE: usize = 16;

/// How many of 16 bytes come before the first that is `a`, `b` or `c`.
#[cfg_attr(not(debug_assertions), inline(always))]
pub fn len_before(bytes: &[u8], a: u8, b: u8, c: u8) -> usize {
    let v = u8x16::from_slice(bytes);
    let found = v.simd_eq(u8x16::splat(a))
        | v.simd_eq(u8x16::splat(b))
        | v.simd_eq(u8x16::splat(c));
    let flags = found.to_bitmask();
    if flags == 0 {
        STRIDE
    } else {
        to_usize(flags.trailing_zeros())
    }
}
