// From crates/binfarce_logs/src/module.rt, by tools/erase.

//! Offsets into modules in a text.

use crate::erased::binfarce_logs::maps::name_of;

// How many bytes the name of the file of this path has that is before an offset, which comes after the text. 0 if none
// is.
pub(crate) fn name_len(path: &[u8], text: &[u8]) -> usize {
    if names_module(path, text) {
        return path.len();
    }
    let name = name_of(path);
    if names_module(name, text) {
        name.len()
    } else {
        0
    }
}

// Whether an offset into this module comes after the text.
fn names_module(name: &[u8], text: &[u8]) -> bool {
    ends_with_mark(name, b"+", text)
        || ends_with_mark(name, b"(+", text)
        || ends_with_mark(name, b" + ", text)
}

// Whether an offset after the text may be one into a function of this name.
pub(crate) fn names_symbol(name: &[u8], text: &[u8]) -> bool {
    if !text.ends_with(b"+") {
        return false;
    }
    let named = &text[..text.len() - 1];
    named.ends_with(name) && may_begin_word(&named[..named.len() - name.len()])
}

// Whether an offset comes after the text.
pub(crate) fn ends_with_plus(text: &[u8]) -> bool {
    text.ends_with(b"+") || text.ends_with(b"+ ")
}

// Whether the text ends with the name of this module, and a mark.
fn ends_with_mark(name: &[u8], mark: &[u8], text: &[u8]) -> bool {
    if !text.ends_with(mark) {
        return false;
    }
    let named = &text[..text.len() - mark.len()];
    named.ends_with(name) && may_begin_name(&named[..named.len() - name.len()])
}

// Whether the name of a module may begin after the text.
fn may_begin_name(text: &[u8]) -> bool {
    may_begin_path(text) || (text.ends_with(b"(") && may_begin_path(&text[..text.len() - 1]))
}

// Whether a path may begin after the text, or go on.
fn may_begin_path(text: &[u8]) -> bool {
    may_begin_word(text) || text.ends_with(b"/") || text.ends_with(b"[")
}

// Whether a word may begin after the text.
fn may_begin_word(text: &[u8]) -> bool {
    text.is_empty() || text.ends_with(b" ") || text.ends_with(b"\t") || text.ends_with(b"\n")
}
