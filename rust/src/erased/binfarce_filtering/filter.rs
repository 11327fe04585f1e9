// From crates/binfarce_filtering/src/filter.rt, by tools/erase.

//! Demangles the names within a text.

use crate::shim::{String, Vec};
use crate::erased::binfarce_legacy::elements::elements_end;
use crate::erased::binfarce_names::demangle::Demangler;
use crate::erased::binfarce_text::strides::{STRIDE, len_before};
use crate::shim::alloc::{AllocError, Global};

/// The length in bytes of the longest run that may hold names. A longer one stays unchanged.
pub const MAX_RUN: usize = 1 << 20;

/// The length in bytes of the longest readable text that is shown. A name with a longer one stays unchanged.
pub const MAX_TEXT: usize = 1 << 20;

/// The text with each mangled name replaced by its trimmed text, or if `full` by its complete text.
///
/// A run begins with the first `_` among ASCII letters, digits, `_`, `$` and `.`, and ends before the next other byte.
/// In a run that is no longer than `MAX_RUN`, names are looked for from left to right. A name begins with `_ZN` and a
/// digit, or with `_R` and one of `N`, `I`, `M`, `X` and `Y`; at the run's first byte another `_` may come before. It
/// ends where its mangling does, before a `.` or the run's end. The last element of one with `_ZN` is a hash: `17h` and
/// 16 lower-case hexadecimal digits. `.llvm.` and a number after a name that is replaced are left out. A name whose
/// readable text has a control character or more than `MAX_TEXT` bytes stays unchanged. So do all other bytes, which
/// need not be UTF-8. After a `_ZN` and a digit that begin no such name, such as a C++ name, the rest of the run stays
/// unchanged.
///
/// # Errors
///
/// `AllocError` if an allocation failed.
pub fn filter(alloc: Global, full: bool, text: &[u8]) -> Result<Vec<u8>, AllocError> {
    let mut names = Names::new(alloc);
    let mut out = Vec::new(alloc);
    let at = push_ended(&mut names, full, text, &mut out)?;
    push_run(&mut names, full, &text[at..], &mut out)?;
    Ok(out)
}

// What makes names readable, one after the other, and the text of the last one.
struct Names {
    demangler: Demangler,
    text: String,
}

impl Names {
    fn new(alloc: Global) -> Names {
        Names {
            demangler: Demangler::new(alloc),
            text: String::new(alloc),
        }
    }
}

/// Filters a text that comes in parts.
pub struct TextFilter {
    full: bool,
    names: Names,
    // The run that the text ends in so far, or if that is too long, more than `MAX_RUN` bytes of it.
    run: Vec<u8>,
}

impl TextFilter {
    /// A filter at the beginning of a text. It replaces a name by its trimmed text, or if `full` by its complete text.
    /// Nothing is allocated.
    pub fn new(alloc: Global, full: bool) -> TextFilter {
        TextFilter {
            full,
            names: Names::new(alloc),
            run: Vec::new(alloc),
        }
    }

    /// Takes the next part of the text, and appends the output so far to `out`. The run at the end of the text is held
    /// back from its first `_` on, unless it is longer than `MAX_RUN`.
    ///
    /// # Errors
    ///
    /// `AllocError` if an allocation failed. Don't use the filter after that.
    pub fn push(&mut self, part: &[u8], out: &mut Vec<u8>) -> Result<(), AllocError> {
        if self.run.is_empty() {
            return self.push_text(part, out);
        }
        let len = run_len(part);
        if len == part.len() {
            return self.grow(part, out);
        }
        self.end_run(&part[..len], part[len], out)?;
        self.push_text(&part[len + 1..], out)
    }

    /// Ends the text, and appends the rest of the output to `out`. Don't use the filter after that, whatever the
    /// result.
    ///
    /// # Errors
    ///
    /// `AllocError` if an allocation failed.
    pub fn finish(&mut self, out: &mut Vec<u8>) -> Result<(), AllocError> {
        self.show_run(&[], out)
    }

    // The text goes on with this part between two runs.
    fn push_text(&mut self, part: &[u8], out: &mut Vec<u8>) -> Result<(), AllocError> {
        let at = push_ended(&mut self.names, self.full, part, out)?;
        self.grow(&part[at..], out)
    }

    // The run goes on with these bytes.
    fn grow(&mut self, bytes: &[u8], out: &mut Vec<u8>) -> Result<(), AllocError> {
        if is_too_long(self.run.as_slice()) {
            return out.extend_from_slice(bytes);
        }
        self.run.extend_from_slice(bytes)?;
        if !is_too_long(self.run.as_slice()) {
            return Ok(());
        }
        out.extend_from_slice(self.run.as_slice())
    }

    // The run goes on with these bytes, and another byte comes after it.
    fn end_run(&mut self, bytes: &[u8], other: u8, out: &mut Vec<u8>) -> Result<(), AllocError> {
        self.show_run(bytes, out)?;
        self.run.clear();
        out.push(other)?;
        Ok(())
    }

    // Writes the rest of the output for the run, which ends with these bytes.
    fn show_run(&mut self, bytes: &[u8], out: &mut Vec<u8>) -> Result<(), AllocError> {
        if is_too_long(self.run.as_slice()) {
            return out.extend_from_slice(bytes);
        }
        self.run.extend_from_slice(bytes)?;
        push_run(&mut self.names, self.full, self.run.as_slice(), out)
    }
}

// Writes the output for the text before the run at its end, and returns where that run begins.
fn push_ended(
    names: &mut Names,
    full: bool,
    text: &[u8],
    out: &mut Vec<u8>,
) -> Result<usize, AllocError> {
    let mut at = 0;
    loop {
        let rest = &text[at..];
        let plain = plain_len(rest);
        out.extend_from_slice(&rest[..plain])?;
        let run = &rest[plain..];
        let len = run_len(run);
        if len == run.len() {
            return Ok(at + plain);
        }
        push_run(names, full, &run[..len], out)?;
        out.push(run[len])?;
        at += plain + len + 1;
    }
}

// The length of a beginning of the text that stays as it is: up to a run that may hold a name, or else up to the run
// that the text ends in.
fn plain_len(text: &[u8]) -> usize {
    run_start(text, mark_at(text))
}

// The position of the first `Z` or `R` that follows a `_`, or the text's length.
fn mark_at(text: &[u8]) -> usize {
    let mut at = 0;
    while at < text.len() && !is_mark_at(text, at) {
        let others = others_at(text, at);
        at += 1 + others;
    }
    at
}

// Whether a `Z` or `R` that follows a `_` is here.
#[cfg_attr(not(debug_assertions), inline(always))]
fn is_mark_at(text: &[u8], at: usize) -> bool {
    if at == 0 {
        return false;
    }
    text[at - 1] == b'_' && (text[at] == b'Z' || text[at] == b'R')
}

// How many bytes from a position on are no `_`, of the next 16; 0 if fewer come after it.
#[cfg_attr(not(debug_assertions), inline(always))]
fn others_at(text: &[u8], at: usize) -> usize {
    if text.len() - at <= STRIDE {
        return 0;
    }
    others_among(&text[at..at + STRIDE])
}

// How many of 16 bytes come before a `_`.
#[cfg_attr(not(debug_assertions), inline(always))]
fn others_among(bytes: &[u8]) -> usize {
    len_before(bytes, b'_', b'_', b'_')
}

// Where the run begins that ends at a position of the text; that position if none does.
fn run_start(text: &[u8], end: usize) -> usize {
    let mut start = end;
    let mut at = end;
    while at > 0 && is_run_byte(text[at - 1]) {
        at -= 1;
        if text[at] == b'_' {
            start = at;
        }
    }
    start
}

// The length of the run bytes that a text begins with.
fn run_len(text: &[u8]) -> usize {
    let mut len = 0;
    while len < text.len() && is_run_byte(text[len]) {
        len += 1;
    }
    len
}

// A byte of a run.
fn is_run_byte(byte: u8) -> bool {
    matches!(byte, b'0'..=b'9' | b'A'..=b'Z' | b'a'..=b'z' | b'_' | b'$' | b'.')
}

// A run that is too long to hold names.
fn is_too_long(run: &[u8]) -> bool {
    run.len() > MAX_RUN
}

// Writes the output for a run.
fn push_run(names: &mut Names, full: bool, run: &[u8], out: &mut Vec<u8>) -> Result<(), AllocError> {
    if is_too_long(run) {
        return out.extend_from_slice(run);
    }
    push_names(names, full, run, out)
}

// Writes the output for a run that isn't too long.
fn push_names(
    names: &mut Names,
    full: bool,
    run: &[u8],
    out: &mut Vec<u8>,
) -> Result<(), AllocError> {
    let mut at = 0;
    while at < run.len() {
        let len = push_next(names, full, at == 0, &run[at..], out)?;
        at += len;
    }
    Ok(())
}

// Writes the output for the name, or else the byte, at the front of a run or its rest. Returns how many bytes that
// replaces.
fn push_next(
    names: &mut Names,
    full: bool,
    first: bool,
    run: &[u8],
    out: &mut Vec<u8>,
) -> Result<usize, AllocError> {
    if !begins_name(first, run) {
        out.push(run[0])?;
        return Ok(1);
    }
    let Some(len) = name_len(run) else {
        out.extend_from_slice(run)?;
        return Ok(run.len());
    };
    let changes = push_name(names, full, &run[..len], out)?;
    if changes {
        Ok(len + llvm_len(&run[len..]))
    } else {
        Ok(len)
    }
}

// Whether a name may begin here.
fn begins_name(first: bool, run: &[u8]) -> bool {
    begins_symbol(run) || (first && begins_symbol(&run[1..]))
}

// Whether a symbol of a mangled name may begin here.
fn begins_symbol(run: &[u8]) -> bool {
    begins_legacy(run) || begins_v0(run)
}

// Whether a legacy mangling may begin here.
fn begins_legacy(run: &[u8]) -> bool {
    run.starts_with(b"_ZN") && run.len() > 3 && run[3].is_ascii_digit()
}

// Whether a v0 mangling may begin here.
fn begins_v0(run: &[u8]) -> bool {
    run.starts_with(b"_R") && run.len() > 2 && matches!(run[2], b'N' | b'I' | b'M' | b'X' | b'Y')
}

// The length of the name at the front of a run. `None` if none is there.
fn name_len(run: &[u8]) -> Option<usize> {
    let added = usize::from(!begins_symbol(run));
    let len = symbol_len(&run[added..])?;
    Some(added + len)
}

// The same for a run without a `_` that a platform has added.
fn symbol_len(run: &[u8]) -> Option<usize> {
    if begins_v0(run) {
        return Some(dot_at(run));
    }
    let (end, has_hash) = elements_end(&run[3..])?;
    let len = 3 + end;
    if has_hash && ends_name(&run[len..]) {
        Some(len)
    } else {
        None
    }
}

// The position of the first `.`, or the length.
fn dot_at(run: &[u8]) -> usize {
    let mut at = 0;
    while at < run.len() && run[at] != b'.' {
        at += 1;
    }
    at
}

// Whether a name ends before this rest of its run.
fn ends_name(rest: &[u8]) -> bool {
    rest.is_empty() || rest[0] == b'.'
}

// The length of the `.llvm.` and the number at the front of the rest after a name, or 0.
fn llvm_len(rest: &[u8]) -> usize {
    if !rest.starts_with(b".llvm.") {
        return 0;
    }
    let end = 6 + digits_len(&rest[6..]);
    if ends_name(&rest[end..]) { end } else { 0 }
}

// The length of the run of LLVM's digits at the front of a text.
fn digits_len(text: &[u8]) -> usize {
    let mut len = 0;
    while len < text.len() && matches!(text[len], b'0'..=b'9' | b'A'..=b'F' | b'@') {
        len += 1;
    }
    len
}

// Writes the output for a name. Returns whether it changes.
fn push_name(
    names: &mut Names,
    full: bool,
    name: &[u8],
    out: &mut Vec<u8>,
) -> Result<bool, AllocError> {
    let name_text = core::str::from_utf8(name).unwrap();
    names
        .demangler
        .short_text(&mut names.text, name_text, full, MAX_TEXT + 1)?;
    let text = names.text.as_str();
    let readable = if has_control(text) {
        name
    } else {
        text.as_bytes()
    };
    out.extend_from_slice(readable)?;
    Ok(readable != name)
}

// Whether a character of the text is a control character.
fn has_control(text: &str) -> bool {
    text.chars().any(|c| c.is_control())
}
