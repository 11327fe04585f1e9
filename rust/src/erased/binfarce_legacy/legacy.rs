// From crates/binfarce_legacy/src/legacy.rt, by tools/erase.

//! The legacy mangling: `_ZN`, elements that each follow their length, and `E`.

use crate::shim::String;
use crate::erased::binfarce_legacy::elements::{element, elements_end};
use crate::erased::binfarce_legacy::escapes::escape;
use crate::erased::binfarce_legacy::runs::{has_mark, plain_end};
use crate::erased::binfarce_text::prefixes::after_prefix;
use crate::erased::binfarce_text::suffixes::is_allowed_rest;
use crate::shim::alloc::{AllocError, Global};

// The part of a text after the prefix of a legacy mangling.
fn part_after_prefix(text: &str) -> Option<&str> {
    after_prefix(text, "_ZN", "ZN", "__ZN")
}

/// The part of `text` after the prefix of a legacy mangling, and the suffix after its `E` in that part. `None` if
/// `text` isn't a legacy mangling. Nothing is copied.
pub fn mangling(text: &str) -> Option<(&str, &str)> {
    let part = part_after_prefix(text)?;
    let bytes = part.as_bytes();
    let (end, _) = elements_end(bytes)?;
    if !is_allowed_rest(&bytes[end..]) {
        return None;
    }
    if !bytes.is_ascii() {
        return None;
    }
    Some((part, &part[end..]))
}

// The length of the mark that is dropped from the front of `name`: a `_` before a `$`.
fn mark_len(name: &[u8]) -> usize {
    if name.starts_with(b"_$") { 1 } else { 0 }
}

// Writes the piece that `name` begins with, and returns the piece's length.
fn push_piece(text: &mut String, name: &str) -> Result<usize, AllocError> {
    let bytes = name.as_bytes();
    if bytes.starts_with(b"..") {
        text.push_str("::")?;
        return Ok(2);
    }
    if bytes[0] == b'.' {
        text.push('.')?;
        return Ok(1);
    }
    match escape(bytes) {
        Some((c, len)) => {
            text.push(c)?;
            Ok(len)
        }
        None => {
            text.push_str(name)?;
            Ok(name.len())
        }
    }
}

// Writes bytes that denote themselves. Where there are none, as between two escapes, it calls nothing.
#[cfg_attr(not(debug_assertions), inline(always))]
fn push_run(text: &mut String, run: &str) -> Result<(), AllocError> {
    if run.is_empty() {
        return Ok(());
    }
    text.push_str(run)
}

// Writes an element's name in readable form. `wide` begins with the name.
fn push_name(text: &mut String, name: &str, wide: &[u8]) -> Result<(), AllocError> {
    let bytes = name.as_bytes();
    let mut at = mark_len(bytes);
    while at < name.len() {
        let special = plain_end(bytes, wide, at);
        push_run(text, &name[at..special])?;
        if special == name.len() {
            return Ok(());
        }
        at = special + push_piece(text, &name[special..])?;
    }
    Ok(())
}

// Whether an element's name is, byte for byte, the last part of a path: the elements end where the name ends, at `end`,
// and it has no mark.
#[cfg_attr(not(debug_assertions), inline(always))]
fn is_last_part(part: &[u8], name: &[u8], end: usize) -> bool {
    end < part.len() && part[end] == b'E' && !has_mark(name)
}

// Appends the path of a mangling to the text; `part` is what follows its prefix. If `trimmed`, the last part is left
// out where it is, byte for byte, the name of the last element, and not the first. Returns whether it was left out.
fn push_path(text: &mut String, part: &str, trimmed: bool) -> Result<bool, AllocError> {
    let bytes = part.as_bytes();
    let mut at = 0;
    while let Some((start, end)) = element(bytes, at) {
        let name = &part[start..end];
        if at > 0 {
            if trimmed && is_last_part(bytes, name.as_bytes(), end) {
                return Ok(true);
            }
            text.push_str("::")?;
        }
        push_name(text, name, &bytes[start..])?;
        at = end;
    }
    Ok(false)
}

/// The readable text of a mangling; `part` is what follows its prefix. The only error is a failed allocation.
pub fn complete(alloc: Global, part: &str) -> Result<String, AllocError> {
    let mut text = String::with_capacity(alloc, part.len())?;
    let _ = push_path(&mut text, part, false)?;
    Ok(text)
}

/// Appends the beginning of a mangling's readable text to `text`: the first element's name in readable form, and `::`
/// if another element follows. If the name begins with an escaped `<`, only that `<` is written. `part` is what
/// follows the prefix. The only error is a failed allocation.
pub fn push_front(text: &mut String, part: &str) -> Result<(), AllocError> {
    let bytes = part.as_bytes();
    let Some((start, end)) = element(bytes, 0) else {
        return Ok(());
    };
    let first = &part[start..end];
    if first.as_bytes().starts_with(b"_$LT$") {
        return text.push_str("<");
    }
    push_name(text, first, &bytes[start..])?;
    let Some(_) = element(bytes, end) else {
        return Ok(());
    };
    text.push_str("::")
}

/// Appends the readable text of a mangling, without its last part, to `text`. The only error is a failed allocation;
/// `text` is then unchanged.
pub fn push_trimmed(text: &mut String, part: &str) -> Result<(), AllocError> {
    let start = text.as_str().len();
    match push_path(text, part, true) {
        Ok(true) => Ok(()),
        Ok(false) => {
            let kept = without_last_part(&text.as_str()[start..]).len();
            text.truncate(start + kept);
            Ok(())
        }
        Err(refused) => {
            text.truncate(start);
            Err(refused)
        }
    }
}

// `complete` without its last part, whether or not that is a hash: up to the character before its last `:`, or all of
// it if there is no `:`. Nothing is copied.
fn without_last_part(complete: &str) -> &str {
    match complete.rfind(':') {
        None => complete,
        Some(colon) => {
            let mut front = complete[..colon].chars();
            let _ = front.next_back();
            front.as_str()
        }
    }
}

/// A copy of `complete` without its last part. The only error is a failed allocation.
pub fn trimmed(alloc: Global, complete: &str) -> Result<String, AllocError> {
    String::from_str(alloc, without_last_part(complete))
}
