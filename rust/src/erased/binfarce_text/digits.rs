// From crates/binfarce_text/src/digits.rt, by tools/erase.

//! Hexadecimal digits, read and printed.

/// The value of a lower-case hexadecimal digit, from 0 to 15. None for any other byte.
pub fn hex_value(byte: u8) -> Option<u8> {
    match byte {
        b'0'..=b'9' => Some(byte - b'0'),
        b'a'..=b'f' => Some(byte - b'a' + 10),
        _ => None,
    }
}

/// The lower-case hexadecimal digit of a value.
#[cfg_attr(not(debug_assertions), inline(always))]
pub fn hex_digit(value: u64) -> u8 {
    const DIGITS: [u8; 16] = *b"0123456789abcdef";
    DIGITS[value as usize]
}
