// From crates/binfarce_legacy/src/escapes.rt, by tools/erase.

//! The escapes in the names of elements: `$`, a word or a number, and `$`.

use crate::erased::binfarce_text::digits::hex_value;

// The character of the named escape that `name` begins with, and the escape's length.
fn named_escape(name: &[u8]) -> Option<(char, usize)> {
    if name.starts_with(b"$LT$") {
        Some(('<', 4))
    } else if name.starts_with(b"$GT$") {
        Some(('>', 4))
    } else if name.starts_with(b"$RF$") {
        Some(('&', 4))
    } else if name.starts_with(b"$C$") {
        Some((',', 3))
    } else if name.starts_with(b"$LP$") {
        Some(('(', 4))
    } else if name.starts_with(b"$RP$") {
        Some((')', 4))
    } else if name.starts_with(b"$BP$") {
        Some(('*', 4))
    } else if name.starts_with(b"$SP$") {
        Some(('@', 4))
    } else {
        None
    }
}

// The length of the run of hexadecimal digits that `text` begins with, and the number that they write, if it is below
// 0x110000.
fn hex_count(text: &[u8]) -> (usize, u32) {
    if let Some(number) = two_hex_digits(text) {
        return (2, number);
    }
    let mut digits = 0;
    let mut number: u32 = 0;
    while digits < text.len() {
        let Some(value) = hex_value(text[digits]) else {
            break;
        };
        number = (number * 16 + u32::from(value)).min(0x11_0000);
        digits += 1;
    }
    (digits, number)
}

// The number that two hexadecimal digits before a `$` write: nearly every escape has two.
#[cfg_attr(not(debug_assertions), inline(always))]
fn two_hex_digits(text: &[u8]) -> Option<u32> {
    if text.len() < 3 || text[2] != b'$' {
        return None;
    }
    let first = hex_value(text[0])?;
    let second = hex_value(text[1])?;
    Some(u32::from(first) * 16 + u32::from(second))
}

// A character that is printed: a scalar value that isn't a control character.
fn is_printed(code: u32) -> bool {
    matches!(code, 0x20..=0x7E | 0xA0..=0xD7FF | 0xE000..=0x10_FFFF)
}

// The character of the numbered escape that `name` begins with, and the escape's length.
fn numbered_escape(name: &[u8]) -> Option<(char, usize)> {
    let (digits, code) = hex_count(&name[2..]);
    let end = 2 + digits;
    if digits > 0 && end < name.len() && name[end] == b'$' && is_printed(code) {
        Some((char::from_u32(code)?, end + 1))
    } else {
        None
    }
}

// The character of the escape that `name` begins with, and the escape's length, where its `$`
// begins one.
pub(crate) fn escape(name: &[u8]) -> Option<(char, usize)> {
    if name.starts_with(b"$u") {
        numbered_escape(name)
    } else {
        named_escape(name)
    }
}
