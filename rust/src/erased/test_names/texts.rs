// From crates/test_names/src/texts.rt, by tools/erase.

//! Texts with names, the characters of codes, and the bytes of questions.

use crate::shim::{String, Vec};
use crate::erased::binfarce_filtering::filter::{TextFilter, filter};
use crate::erased::binfarce_v0_grammar::punycode::decode;
use crate::shim::alloc::{AllocError, Global};
use crate::shim::io::{self, Error, ErrorKind};

/// Appends a text with complete and with trimmed names.
pub fn push_filtered(alloc: Global, line: &mut String, text: &[u8]) -> Result<(), AllocError> {
    push_text(alloc, line, true, text)?;
    line.push('|')?;
    push_text(alloc, line, false, text)
}

/// Appends how many bytes a text has with complete and with trimmed names.
pub fn push_sizes(alloc: Global, line: &mut String, text: &[u8]) -> Result<(), AllocError> {
    let complete = filter(alloc, true, text)?.len();
    let trimmed = filter(alloc, false, text)?.len();
    write!(line, "{complete}|{trimmed}")
}

// Appends what is shown of a text. In front of it is the length of parts that give another text.
fn push_text(alloc: Global, line: &mut String, full: bool, text: &[u8]) -> Result<(), AllocError> {
    let shown = filter(alloc, full, text)?;
    for n in 0..text.len() + 2 {
        let cut = in_parts(alloc, full, text, n, usize::MAX)?;
        let many = in_parts(alloc, full, text, n, n)?;
        if cut.as_slice() != shown.as_slice() || many.as_slice() != shown.as_slice() {
            write!(line, "otherwise in parts of {n}: ")?;
        }
    }
    push_bytes(line, shown.as_slice())
}

// What is shown of the text in parts of so many bytes, where the first has another length.
fn in_parts(
    alloc: Global,
    full: bool,
    text: &[u8],
    first: usize,
    len: usize,
) -> Result<Vec<u8>, AllocError> {
    let mut filter = TextFilter::new(alloc, full);
    let mut out = Vec::new(alloc);
    let (front, back) = text.split_at(first.min(text.len()));
    filter.push(front, &mut out)?;
    for part in back.chunks(len.max(1)) {
        filter.push(part, &mut out)?;
    }
    filter.finish(&mut out)?;
    Ok(out)
}

// Appends bytes as a question has them.
fn push_bytes(line: &mut String, bytes: &[u8]) -> Result<(), AllocError> {
    for &byte in bytes {
        if matches!(byte, b' '..=b'~') && byte != b'\\' {
            line.push(char::from(byte))?;
        } else {
            write!(line, "\\{byte:02X}")?;
        }
    }
    Ok(())
}

/// Appends the text of an ASCII part, a bar and a code, or `none`.
pub fn push_decoded(line: &mut String, asked: &str) -> Result<(), AllocError> {
    let (ascii, code) = asked.split_once('|').unwrap_or((asked, ""));
    match decode(ascii.as_bytes(), code.as_bytes()) {
        None => line.push_str("none")?,
        Some(decoded) => {
            for &character in decoded.characters() {
                line.push(character)?;
            }
        }
    }
    Ok(())
}

/// The bytes of what is asked.
pub fn unescaped(alloc: Global, asked: &str) -> io::Result<Vec<u8>> {
    let mut bytes = Vec::new(alloc);
    let mut parts = asked.split('\\');
    if let Some(plain) = parts.next() {
        bytes.extend_from_slice(plain.as_bytes())?;
    }
    for part in parts {
        let rest = match part.strip_prefix('{') {
            Some(text) => match repeated(text) {
                Some((times, part, rest)) => {
                    push_repeated(&mut bytes, times, part)?;
                    Some(rest)
                }
                None => None,
            },
            None => push_byte(&mut bytes, part)?,
        };
        bytes.extend_from_slice(rest.ok_or(Error::from(ErrorKind::InvalidData))?.as_bytes())?;
    }
    Ok(bytes)
}

// How many times a part is repeated, the part, and the rest.
fn repeated(text: &str) -> Option<(u16, &str, &str)> {
    let (times, rest) = text.split_once('*')?;
    let (part, rest) = rest.split_once('}')?;
    Some((times.parse().ok()?, part, rest))
}

fn push_repeated(bytes: &mut Vec<u8>, times: u16, part: &str) -> Result<(), AllocError> {
    for _ in 0..times {
        bytes.extend_from_slice(part.as_bytes())?;
    }
    Ok(())
}

// Appends the byte of two digits, and returns the rest.
fn push_byte<'a>(bytes: &mut Vec<u8>, digits: &'a str) -> Result<Option<&'a str>, AllocError> {
    let Some((digits, rest)) = digits.split_at_checked(2) else {
        return Ok(None)
    };
    let Ok(byte) = u8::from_str_radix(digits, 16) else {
        return Ok(None)
    };
    bytes.push(byte)?;
    Ok(Some(rest))
}
