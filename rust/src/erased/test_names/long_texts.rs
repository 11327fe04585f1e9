// From crates/test_names/src/long_texts.rt, by tools/erase.

//! Names whose texts are long.

use crate::shim::String;
use crate::erased::binfarce_names::demangle::SymbolName;
use crate::shim::alloc::{AllocError, Global};

/// Appends how many times the complete text between `<` and `>` is a tuple of two equal texts, each of which is one of
/// two, and so on; and the text that is none.
pub fn push_pairs(alloc: Global, line: &mut String, name: &str) -> Result<(), AllocError> {
    let answer = SymbolName::demangle(alloc, name)?;
    let mut text = answer.complete.as_str().trim_matches(['<', '>']);
    for depth in 0..32 {
        match half_of(text) {
            Some(half) => text = half,
            None => return write!(line, "{depth} {text}"),
        }
    }
    line.push_str("more than 31")
}

/// Appends the last 14 bytes of the complete text.
pub fn push_end(alloc: Global, line: &mut String, name: &str) -> Result<(), AllocError> {
    let answer = SymbolName::demangle(alloc, name)?;
    let text = answer.complete.as_str();
    line.push_str(text.get(text.len().saturating_sub(14)..).unwrap_or(text))
}

// The text that a tuple has twice.
fn half_of(text: &str) -> Option<&str> {
    let inner = text.strip_prefix('(')?.strip_suffix(')')?;
    let (first, second) = inner.split_at_checked(inner.len().saturating_sub(2) / 2)?;
    (second.strip_prefix(", ")? == first).then_some(first)
}
