// From crates/binfarce_v0_grammar/src/numbers.rt, by tools/erase.

//! Numbers of a v0 name (RFC 2603, "Base-62-Numbers"): from a position to the value and the position after it. A number
//! of 2^64 or more is invalid.

use crate::shim::to_usize;
use crate::erased::binfarce_text::digits::hex_value;
use crate::erased::binfarce_text::strides::STRIDE;
use crate::shim::simd::prelude::*;

/// The byte at a position, and 0 from the end on.
#[cfg_attr(not(debug_assertions), inline(always))]
pub fn byte_at(part: &[u8], at: usize) -> u8 {
    if at < part.len() { part[at] } else { 0 }
}

/// The position after an optional byte; the same position where that byte isn't there.
#[cfg_attr(not(debug_assertions), inline(always))]
pub fn past(part: &[u8], byte: u8, at: usize) -> usize {
    if byte_at(part, at) == byte {
        at + 1
    } else {
        at
    }
}

// The value of each byte as a base-62 digit; 62 for any other byte.
const VALUES: [u8; 256] = [
    62, 62, 62, 62, 62, 62, 62, 62, 62, 62, 62, 62, 62, 62, 62, 62, 62, 62, 62, 62, 62, 62, 62, 62,
    62, 62, 62, 62, 62, 62, 62, 62, 62, 62, 62, 62, 62, 62, 62, 62, 62, 62, 62, 62, 62, 62, 62, 62,
    0, 1, 2, 3, 4, 5, 6, 7, 8, 9, 62, 62, 62, 62, 62, 62, 62, 36, 37, 38, 39, 40, 41, 42, 43, 44,
    45, 46, 47, 48, 49, 50, 51, 52, 53, 54, 55, 56, 57, 58, 59, 60, 61, 62, 62, 62, 62, 62, 62, 10,
    11, 12, 13, 14, 15, 16, 17, 18, 19, 20, 21, 22, 23, 24, 25, 26, 27, 28, 29, 30, 31, 32, 33, 34,
    35, 62, 62, 62, 62, 62, 62, 62, 62, 62, 62, 62, 62, 62, 62, 62, 62, 62, 62, 62, 62, 62, 62, 62,
    62, 62, 62, 62, 62, 62, 62, 62, 62, 62, 62, 62, 62, 62, 62, 62, 62, 62, 62, 62, 62, 62, 62, 62,
    62, 62, 62, 62, 62, 62, 62, 62, 62, 62, 62, 62, 62, 62, 62, 62, 62, 62, 62, 62, 62, 62, 62, 62,
    62, 62, 62, 62, 62, 62, 62, 62, 62, 62, 62, 62, 62, 62, 62, 62, 62, 62, 62, 62, 62, 62, 62, 62,
    62, 62, 62, 62, 62, 62, 62, 62, 62, 62, 62, 62, 62, 62, 62, 62, 62, 62, 62, 62, 62, 62, 62, 62,
    62, 62, 62, 62, 62, 62, 62, 62, 62, 62, 62, 62, 62, 62,
];

// The value of a base-62 digit, by one table lookup: a disambiguator has up to eleven digits.
#[cfg_attr(not(debug_assertions), inline(always))]
fn digit_62(c: u8) -> Option<u8> {
    let value = VALUES[to_usize(c)];
    if value > 61 {
        return None;
    }
    Some(value)
}

// Whether a byte is a base-62 digit.
#[cfg_attr(not(debug_assertions), inline(always))]
fn is_digit_62(c: u8) -> bool {
    digit_62(c).is_some()
}

// A number with one more digit after it, where it is below 2^64.
#[cfg_attr(not(debug_assertions), inline(always))]
fn with_digit(value: u64, base: u64, digit: u8) -> Option<u64> {
    value.checked_mul(base)?.checked_add(u64::from(digit))
}

// Base-62 digits up to a `_`: one more than the number that they write.
#[cfg_attr(not(debug_assertions), inline(always))]
fn digits_62(part: &[u8], start: usize) -> Option<(u64, usize)> {
    let mut value: u64 = 0;
    for at in start..part.len() {
        let c = part[at];
        if c == b'_' {
            return Some((value.checked_add(1)?, at + 1));
        }
        let digit = digit_62(c)?;
        value = with_digit(value, 62, digit)?;
    }
    None
}

/// `<base-62-number>` at a position. None where it is invalid.
#[cfg_attr(not(debug_assertions), inline(always))]
pub fn base_62_number(part: &[u8], at: usize) -> Option<(u64, usize)> {
    if byte_at(part, at) == b'_' {
        Some((0, at + 1))
    } else {
        digits_62(part, at)
    }
}

/// A number after a tag, as a disambiguator after `s` or a binder after `G`: 0 without the tag, and one more than the
/// number with it. `None` if the number is invalid.
#[cfg_attr(not(debug_assertions), inline(always))]
pub fn optional_base_62_number(part: &[u8], tag: u8, at: usize) -> Option<(u64, usize)> {
    if byte_at(part, at) == tag {
        let (value, after) = base_62_number(part, at + 1)?;
        Some((value.checked_add(1)?, after))
    } else {
        Some((0, at))
    }
}

// How many of 16 bytes are base-62 digits before the first that isn't.
#[cfg_attr(not(debug_assertions), inline(always))]
fn digit_run(bytes: &[u8]) -> usize {
    let v = u8x16::from_slice(bytes);
    let letter = (v | u8x16::splat(0x20)) - u8x16::splat(b'a');
    let digit = v - u8x16::splat(b'0');
    let is_other = letter.simd_ge(u8x16::splat(26)) & digit.simd_ge(u8x16::splat(10));
    let others = is_other.to_bitmask();
    if others == 0 {
        STRIDE
    } else {
        to_usize(others.trailing_zeros())
    }
}

// The position after the longest run of base-62 digits from a position on: a disambiguator has up to eleven.
#[cfg_attr(not(debug_assertions), inline(always))]
fn digits_end(part: &[u8], start: usize) -> usize {
    if part.len() - start >= STRIDE {
        let run = digit_run(&part[start..start + STRIDE]);
        if run < STRIDE {
            return start + run;
        }
    }
    digits_end_slowly(part, start)
}

// The same, one byte at a time.
#[inline(never)]
fn digits_end_slowly(part: &[u8], start: usize) -> usize {
    let mut end = start;
    while end < part.len() && is_digit_62(part[end]) {
        end += 1;
    }
    end
}

// Whether two digits write less than 1362. With nine more digits they then write less than 2^64 - 2.
#[cfg_attr(not(debug_assertions), inline(always))]
fn are_small(first: u8, second: u8) -> bool {
    match (digit_62(first), digit_62(second)) {
        (Some(first), Some(second)) => u32::from(first) * 62 + u32::from(second) < 1362,
        _ => false,
    }
}

// Whether the digits from `start` to `end` surely write a number below 2^64 - 2, by their count and the first two.
#[cfg_attr(not(debug_assertions), inline(always))]
fn write_small(part: &[u8], start: usize, end: usize) -> bool {
    let count = end - start;
    count <= 10 || (count == 11 && are_small(part[start], part[start + 1]))
}

/// Skips an optional tag and the base-62 number after it: the position behind them. `None` if the number is invalid.
/// Its digits are decoded only if the number may be too large.
#[cfg_attr(not(debug_assertions), inline(always))]
pub fn skip_optional_base_62_number(part: &[u8], tag: u8, at: usize) -> Option<usize> {
    if byte_at(part, at) != tag {
        return Some(at);
    }
    let end = digits_end(part, at + 1);
    if !write_small(part, at + 1, end) {
        let (_, after) = optional_base_62_number(part, tag, at)?;
        return Some(after);
    }
    if byte_at(part, end) == b'_' {
        Some(end + 1)
    } else {
        None
    }
}

/// `<backref>`, with its `B` at `at`: its target, and the position after it. `None` if its number is invalid or
/// names no position before the `B`.
#[cfg_attr(not(debug_assertions), inline(always))]
pub fn back_reference(part: &[u8], at: usize) -> Option<(usize, usize)> {
    let (target, after) = base_62_number(part, at + 1)?;
    if target < at as u64 {
        Some((target as usize, after))
    } else {
        None
    }
}

// The longest run of decimal digits.
#[inline(never)]
fn digits_10(part: &[u8], start: usize) -> Option<(u64, usize)> {
    let mut value: u64 = 0;
    let mut after = start;
    for at in start..part.len() {
        let c = part[at];
        if !c.is_ascii_digit() {
            return Some((value, at));
        }
        value = with_digit(value, 10, c - b'0')?;
        after = at + 1;
    }
    Some((value, after))
}

// The longest run of decimal digits at a position with one. Most runs have one or two digits, which need no loop.
#[cfg_attr(not(debug_assertions), inline(always))]
fn few_digits_10(part: &[u8], start: usize, first: u8) -> Option<(u64, usize)> {
    let second = byte_at(part, start + 1);
    if !second.is_ascii_digit() {
        return Some((u64::from(first - b'0'), start + 1));
    }
    if byte_at(part, start + 2).is_ascii_digit() {
        return digits_10(part, start);
    }
    let value = (first - b'0') * 10 + (second - b'0');
    Some((u64::from(value), start + 2))
}

/// `<decimal-number>` at a position: a `0` alone, or the longest run of digits. None where it is invalid.
#[cfg_attr(not(debug_assertions), inline(always))]
pub fn length_at(part: &[u8], at: usize) -> Option<(u64, usize)> {
    match byte_at(part, at) {
        b'0' => Some((0, at + 1)),
        first @ b'1'..=b'9' => few_digits_10(part, at, first),
        _ => None,
    }
}

/// The position of the `_` that ends the lower-case hexadecimal digits at a position. None where another byte ends
/// them.
pub fn hex_end(part: &[u8], start: usize) -> Option<usize> {
    for at in start..part.len() {
        match part[at] {
            b'_' => return Some(at),
            b'0'..=b'9' | b'a'..=b'f' => {}
            _ => return None,
        }
    }
    None
}

// The value of a hexadecimal digit.
fn hex_digit(c: u8) -> u64 {
    match hex_value(c) {
        Some(value) => u64::from(value),
        None => 0,
    }
}

/// The number that hexadecimal digits write. None for more than 16 digits.
pub fn hex_number(digits: &[u8]) -> Option<u64> {
    if digits.len() > 16 {
        return None;
    }
    let mut value: u64 = 0;
    for c in digits {
        value = value * 16 + hex_digit(*c);
    }
    Some(value)
}
