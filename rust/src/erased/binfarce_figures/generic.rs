// From crates/binfarce_figures/src/generic.rt, by tools/erase.

//! A name without its generic arguments, or as a stack.

use crate::shim::String;
use crate::shim::alloc::AllocError;

/// How a name is rewritten.
#[derive(Debug, Clone, Copy, PartialEq)]
pub enum Shape {
    /// With `<..>` in place of its generic arguments.
    Generic,
    /// With `;` between its parts.
    Stack,
}

/// Appends a name, rewritten. What is between two marks is copied at once.
pub(crate) fn push_rewritten(text: &mut String, shape: Shape, name: &str) -> Result<(), AllocError> {
    let mut depth = 0usize;
    let mut before = ' ';
    let mut at = 0usize;
    while at < name.len() {
        let end = at + plain_len(depth, &name.as_bytes()[at..]);
        let run = &name[at..end];
        push_run(text, shape, depth, run)?;
        before = last_byte(run, before);
        if end == name.len() {
            return Ok(());
        }
        let mark = char::from(name.as_bytes()[end]);
        push_shown(text, shape, depth, before, mark)?;
        depth = depth_after(shape, depth, before, mark);
        before = mark;
        at = end + 1;
    }
    Ok(())
}

// How many bytes are looked at at once.
const STRIDE: usize = 8;

// How many bytes there are before the first mark, or in all.
#[cfg_attr(not(debug_assertions), inline(always))]
fn plain_len(depth: usize, bytes: &[u8]) -> usize {
    let mut len = past_strides(depth, bytes);
    while len < bytes.len() && !is_mark(depth, bytes[len]) {
        len += 1;
    }
    len
}

// The length of the first strides without a mark.
#[cfg_attr(not(debug_assertions), inline(always))]
fn past_strides(depth: usize, bytes: &[u8]) -> usize {
    let mut len = 0;
    while bytes.len() - len >= STRIDE && !has_mark(depth, &bytes[len..len + STRIDE]) {
        len += STRIDE;
    }
    len
}

// Whether one of these bytes is a mark. Without an early exit, so that the comparisons are vectorized.
#[cfg_attr(not(debug_assertions), inline(always))]
fn has_mark(depth: usize, bytes: &[u8]) -> bool {
    let mut found = false;
    for b in bytes {
        found |= is_mark(depth, *b);
    }
    found
}

// Whether a byte is a mark: it may be a bracket, or be shown as another, or not.
#[cfg_attr(not(debug_assertions), inline(always))]
fn is_mark(depth: usize, b: u8) -> bool {
    match depth {
        0 => matches!(b, b':'..=b'='),
        _ => matches!(b, b';'..=b'>'),
    }
}

// Appends what is shown of a run without marks.
#[cfg_attr(not(debug_assertions), inline(always))]
fn push_run(text: &mut String, shape: Shape, depth: usize, run: &str) -> Result<(), AllocError> {
    match (shape, depth) {
        (Shape::Stack, _) | (Shape::Generic, 0) => text.push_str(run),
        _ => Ok(()),
    }
}

// The last byte of a run as a character, or the one before it if the run is empty. For what comes next all characters
// outside ASCII are alike.
#[cfg_attr(not(debug_assertions), inline(always))]
fn last_byte(run: &str, before: char) -> char {
    match run.as_bytes().last() {
        Some(last) => char::from(*last),
        None => before,
    }
}

// Appends what is shown in place of a character: nothing of arguments that are left out, and in a stack `;` of a `::`
// outside of brackets.
fn push_shown(
    text: &mut String,
    shape: Shape,
    depth: usize,
    before: char,
    c: char,
) -> Result<(), AllocError> {
    match (shape, c) {
        (Shape::Generic, _) if depth > 0 => Ok(()),
        (Shape::Generic, _) if opens(shape, before, c) => text.push_str("<..>"),
        (Shape::Stack, ';') => text.push(':'),
        (Shape::Stack, ':') if depth == 0 && before == ':' => text.push(';'),
        (Shape::Stack, ':') if depth == 0 => Ok(()),
        _ => text.push(c),
    }
}

// How many brackets are open after a character.
fn depth_after(shape: Shape, depth: usize, before: char, c: char) -> usize {
    match c {
        '<' if depth > 0 || opens(shape, before, c) => depth + 1,
        '>' if depth > 0 && before != '-' => depth - 1,
        _ => depth,
    }
}

// Whether a character opens brackets: in a stack any `<`, otherwise one after the end of a name, or of `::`.
fn opens(shape: Shape, before: char, c: char) -> bool {
    c == '<' && (shape == Shape::Stack || is_of_path(before))
}

/// Whether a character is one of a path: one of a name, or a colon. Generic arguments may follow it.
pub(crate) fn is_of_path(c: char) -> bool {
    c == ':' || is_of_name(c)
}

/// Whether a character is one of a name.
pub(crate) fn is_of_name(c: char) -> bool {
    c == '_' || c.is_ascii_alphanumeric() || !c.is_ascii()
}
