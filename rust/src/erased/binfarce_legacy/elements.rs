// From crates/binfarce_legacy/src/elements.rt, by tools/erase.

//! The elements of a legacy mangling: the length of each, and where all of them end.

// The length of the run of digits that `text` begins with, and the number that they write, if it is below `usize::MAX`.
fn count(text: &[u8]) -> (usize, usize) {
    if let Some(few) = few_digits(text) {
        return few;
    }
    let mut digits = 0;
    let mut number: usize = 0;
    while digits < text.len() && text[digits].is_ascii_digit() {
        let digit = text[digits] - b'0';
        number = with_digit(number, digit);
        digits += 1;
    }
    (digits, number)
}

// The same where `text` begins with one or two digits and has more than two bytes: nearly every length is so short.
// `None` doesn't mean that there is no digit.
#[cfg_attr(not(debug_assertions), inline(always))]
fn few_digits(text: &[u8]) -> Option<(usize, usize)> {
    if text.len() < 3 || !text[0].is_ascii_digit() {
        return None;
    }
    let first = usize::from(text[0] - b'0');
    if !text[1].is_ascii_digit() {
        return Some((1, first));
    }
    if text[2].is_ascii_digit() {
        return None;
    }
    Some((2, first * 10 + usize::from(text[1] - b'0')))
}

// A number with one more digit after it, if that is below `usize::MAX`.
#[cfg_attr(not(debug_assertions), inline(always))]
fn with_digit(number: usize, digit: u8) -> usize {
    number.saturating_mul(10).saturating_add(usize::from(digit))
}

// Where the name of the element at `at` begins and ends.
pub(crate) fn element(text: &[u8], at: usize) -> Option<(usize, usize)> {
    let rest = &text[at..];
    let (digits, number) = count(rest);
    if digits == 0 {
        return None;
    }
    if rest.len() - digits < number {
        return None;
    }
    let start = at + digits;
    Some((start, start + number))
}

/// The position after the `E` that ends the elements at the front of `text`, and whether the last element is a hash:
/// `17h` and 16 lower-case hexadecimal digits. `None` if `text` doesn't begin with elements and an `E`. `text` is
/// what follows the prefix of a legacy mangling; bytes after the `E` aren't checked. Nothing is allocated.
#[cfg_attr(not(debug_assertions), inline(always))]
pub fn elements_end(text: &[u8]) -> Option<(usize, bool)> {
    let mut last = 0;
    let mut at = 0;
    while at < text.len() && text[at] != b'E' {
        let (_, end) = element(text, at)?;
        last = at;
        at = end;
    }
    if at == text.len() {
        return None;
    }
    Some((at + 1, is_hash(&text[last..at])))
}

// Whether an element with its digits is a hash.
fn is_hash(element: &[u8]) -> bool {
    element.starts_with(b"17h") && are_hex_digits(&element[3..])
}

// Whether each byte is a lower-case hexadecimal digit.
fn are_hex_digits(bytes: &[u8]) -> bool {
    bytes
        .iter()
        .all(|byte| matches!(*byte, b'0'..=b'9' | b'a'..=b'f'))
}
