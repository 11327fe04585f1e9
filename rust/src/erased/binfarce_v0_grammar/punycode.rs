// From crates/binfarce_v0_grammar/src/punycode.rt, by tools/erase.

//! Punycode (RFC 3492): a text whose code says which characters to insert into its ASCII part, and where.

pub(crate) mod text;

pub use text::Decoded;
use text::MOST_CHARACTERS;

const BASE: u64 = 36;

const T_MIN: u64 = 1;

const T_MAX: u64 = 26;

const SKEW: u64 = 38;

const DAMP: u64 = 700;

const INITIAL_BIAS: u64 = 72;

const INITIAL_N: u64 = 128;

// The largest delta that is read. A larger one leads past the last Unicode scalar value in any text, so this limit
// refuses no valid code.
const MAX_DELTA: u64 = 0xFFFF_FFFF;

/// The text of an ASCII part and a code: the parts of a v0 identifier before and after its last `_`. Each byte of the
/// ASCII part is a character, and an empty code inserts none. Nothing is allocated.
///
/// `None` if the code isn't a sequence of deltas in the digits `a` to `z` and `0` to `9`, where it inserts a code
/// point that isn't a Unicode scalar value, and where the text would have more than 128 characters.
pub fn decode(ascii: &[u8], code: &[u8]) -> Option<Decoded> {
    if ascii.len() > MOST_CHARACTERS {
        return None;
    }
    let mut characters = ['\0'; MOST_CHARACTERS];
    copy_ascii(ascii, &mut characters);
    let mut count = ascii.len();
    let mut n = INITIAL_N;
    let mut i = 0;
    let mut bias = INITIAL_BIAS;
    let mut rest = code;
    while !rest.is_empty() {
        if count == MOST_CHARACTERS {
            return None;
        }
        let (delta, after) = delta_of(bias, rest)?;
        let places = count as u64 + 1;
        bias = adapted_bias(delta, places, i == 0);
        n += (i + delta) / places;
        i = (i + delta) % places;
        insert_character(&mut characters, count, i as usize, character(n)?);
        count += 1;
        i += 1;
        rest = after;
    }
    Some(Decoded::new(characters, count))
}

// Writes each byte as a character, from the front on.
fn copy_ascii(ascii: &[u8], characters: &mut [char]) {
    for (at, &byte) in ascii.iter().enumerate() {
        characters[at] = char::from(byte);
    }
}

// Inserts a character into the first `count`.
fn insert_character(characters: &mut [char], count: usize, position: usize, character: char) {
    put_first(&mut characters[position..count + 1], character);
}

// Puts a character before the others, the last of which is lost.
fn put_first(characters: &mut [char], character: char) {
    characters.rotate_right(1);
    characters[0] = character;
}

// The delta that the code begins with, and the code after it (sections 3.3 and 3.4).
fn delta_of(bias: u64, code: &[u8]) -> Option<(u64, &[u8])> {
    let mut delta = 0;
    let mut weight = 1;
    let mut k = BASE;
    for (at, &byte) in code.iter().enumerate() {
        let digit = digit(byte)?;
        delta += digit * weight;
        if delta > MAX_DELTA {
            return None;
        }
        let threshold = k.saturating_sub(bias).min(T_MAX).max(T_MIN);
        if digit < threshold {
            return Some((delta, &code[at + 1..]));
        }
        weight *= BASE - threshold;
        k += BASE;
    }
    None
}

// The value of a digit (section 5).
fn digit(byte: u8) -> Option<u64> {
    match byte {
        b'a'..=b'z' => Some(u64::from(byte - b'a')),
        b'0'..=b'9' => Some(u64::from(byte - b'0') + 26),
        _ => None,
    }
}

// The bias after a delta (section 6.1).
fn adapted_bias(delta: u64, characters: u64, first: bool) -> u64 {
    let damped = if first { delta / DAMP } else { delta / 2 };
    let mut delta = damped + damped / characters;
    let mut k = 0;
    while delta > (BASE - T_MIN) * T_MAX / 2 {
        delta /= BASE - T_MIN;
        k += BASE;
    }
    k + (BASE - T_MIN + 1) * delta / (delta + SKEW)
}

// The character of a code point.
fn character(code_point: u64) -> Option<char> {
    char::from_u32(u32::try_from(code_point).ok()?)
}
