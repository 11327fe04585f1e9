//! Sixteen bytes that are compared side by side, as two words. std's own are in no stable Rust.

/// What `std::simd::prelude` has of it.
pub mod prelude {
    pub use super::u8x16;
}

use core::ops::{BitAnd, BitOr, Sub};

// The highest bit of each byte of a word.
const HIGH: u64 = 0x8080_8080_8080_8080;

/// Sixteen bytes, the first one in the lowest byte of the first word.
#[allow(non_camel_case_types)]
#[derive(Debug, Clone, Copy)]
pub struct u8x16([u64; 2]);

/// Sixteen answers: the highest bit of each byte.
#[derive(Debug, Clone, Copy)]
pub struct Mask([u64; 2]);

impl u8x16 {
    /// The first 16 bytes of at least as many.
    #[inline(always)]
    pub fn from_slice(bytes: &[u8]) -> u8x16 {
        let bytes: [u8; 16] = bytes[..16].try_into().expect("16 bytes");
        let both = u128::from_le_bytes(bytes);
        u8x16([both as u64, (both >> 64) as u64])
    }

    /// The same byte sixteen times.
    #[inline(always)]
    pub fn splat(byte: u8) -> u8x16 {
        u8x16([u64::from_ne_bytes([byte; 8]); 2])
    }

    #[inline(always)]
    fn each(self, other: u8x16, f: impl Fn(u64, u64) -> u64) -> [u64; 2] {
        [f(self.0[0], other.0[0]), f(self.0[1], other.0[1])]
    }

    /// Which bytes are equal.
    #[inline(always)]
    pub fn simd_eq(self, other: u8x16) -> Mask {
        // A byte that differs has one of its bits, or its lower seven overflow into the highest one.
        Mask(self.each(other, |a, b| !(((a ^ b) & !HIGH).wrapping_add(!HIGH) | (a ^ b)) & HIGH))
    }

    /// Which bytes aren't less.
    #[inline(always)]
    pub fn simd_ge(self, other: u8x16) -> Mask {
        // By the highest bits where these differ, and else by the lower ones, whose differences borrow from no other byte.
        Mask(self.each(other, |a, b| ((a & !b) | (!(a ^ b) & (a | HIGH).wrapping_sub(b & !HIGH))) & HIGH))
    }
}

impl BitOr for u8x16 {
    type Output = u8x16;

    #[inline(always)]
    fn bitor(self, other: u8x16) -> u8x16 {
        u8x16(self.each(other, |a, b| a | b))
    }
}

impl Sub for u8x16 {
    type Output = u8x16;

    /// The differences, which wrap.
    #[inline(always)]
    fn sub(self, other: u8x16) -> u8x16 {
        u8x16(self.each(other, |a, b| (a | HIGH).wrapping_sub(b & !HIGH) ^ (!(a ^ b) & HIGH)))
    }
}

impl Mask {
    /// A bit for each answer, the lowest one for the first byte.
    #[inline(always)]
    pub fn to_bitmask(self) -> u64 {
        // Each byte's bit moves to the highest byte, the first one's to its lowest bit.
        let half = |word: u64| (word >> 7).wrapping_mul(0x0102_0408_1020_4080) >> 56;
        half(self.0[0]) | half(self.0[1]) << 8
    }
}

impl BitOr for Mask {
    type Output = Mask;

    #[inline(always)]
    fn bitor(self, other: Mask) -> Mask {
        Mask([self.0[0] | other.0[0], self.0[1] | other.0[1]])
    }
}

impl BitAnd for Mask {
    type Output = Mask;

    #[inline(always)]
    fn bitand(self, other: Mask) -> Mask {
        Mask([self.0[0] & other.0[0], self.0[1] & other.0[1]])
    }
}
