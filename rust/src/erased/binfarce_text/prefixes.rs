// From crates/binfarce_text/src/prefixes.rt, by tools/erase.

//! The prefixes of mangled names.

// The rest of a text after a prefix.
fn after<'a>(text: &'a str, prefix: &str) -> Option<&'a str> {
    text.strip_prefix(prefix)
}

/// The rest of `text` after the first of three prefixes that it begins with. `None` if it begins with none of them.
/// Nothing is copied.
pub fn after_prefix<'a>(text: &'a str, first: &str, second: &str, third: &str) -> Option<&'a str> {
    if let Some(part) = after(text, first) {
        return Some(part);
    }
    if let Some(part) = after(text, second) {
        return Some(part);
    }
    after(text, third)
}
