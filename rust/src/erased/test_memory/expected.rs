// From crates/test_memory/src/expected.rt, by tools/erase.

//! What a value is printed as.

use core::fmt;
use crate::shim::io::Write;
use crate::erased::test_samples::expected::Expected;

/// Whether a value is printed in these words.
pub(crate) fn is_printed<T: fmt::Display>(value: &T, words: &str) -> bool {
    let mut out = Expected::new(words.as_bytes());
    write!(out, "{value}").is_ok() && out.is_whole()
}

/// Whether a value's debug text is this.
pub(crate) fn is_shown<T: fmt::Debug>(value: &T, text: &str) -> bool {
    let mut out = Expected::new(text.as_bytes());
    write!(out, "{value:?}").is_ok() && out.is_whole()
}
