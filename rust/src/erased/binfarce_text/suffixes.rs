// From crates/binfarce_text/src/suffixes.rt, by tools/erase.

//! The suffixes that LLVM adds to a mangled name: `.llvm.` with a number, and other words that begin with `.`.

// A byte of the number after `.llvm.`.
fn is_llvm_digit(byte: u8) -> bool {
    matches!(byte, b'0'..=b'9' | b'A'..=b'F' | b'@')
}

// Whether `.llvm.` is at `at`.
fn has_llvm_at(text: &[u8], at: usize) -> bool {
    text[at..].starts_with(b".llvm.")
}

// Whether a `.llvm.` begins before `end`.
fn has_llvm_below(text: &[u8], end: usize) -> bool {
    for at in 0..end {
        if has_llvm_at(text, at) {
            return true;
        }
    }
    false
}

// Where the trailing digits of `text` begin, of the kind that follows `.llvm.`.
fn digits_start(text: &[u8]) -> usize {
    let mut end = text.len();
    while end > 0 && is_llvm_digit(text[end - 1]) {
        end -= 1;
    }
    end
}

// The length of `text` without its `.llvm.` suffix. Only the end of `text` is read, unless it is such a suffix.
fn len_without_llvm(text: &[u8]) -> usize {
    let end = digits_start(text);
    if end < 6 {
        return text.len();
    }
    let at = end - 6;
    if has_llvm_at(text, at) && !has_llvm_below(text, at) {
        at
    } else {
        text.len()
    }
}

/// The text without its `.llvm.` suffix: all before the first `.llvm.`, if every byte after it is a digit, `A` to `F`
/// or `@`; otherwise the whole text. Nothing is copied.
pub fn without_llvm(text: &str) -> &str {
    let len = len_without_llvm(text.as_bytes());
    &text[..len]
}

// Whether each byte is printable ASCII and not a space.
fn are_rest_bytes(bytes: &[u8]) -> bool {
    bytes.iter().all(|byte| matches!(*byte, b'!'..=b'~'))
}

/// Whether `rest` may follow a mangling: it is empty, or printable ASCII without spaces that begins with `.`.
pub fn is_allowed_rest(rest: &[u8]) -> bool {
    if rest.is_empty() {
        return true;
    }
    rest[0] == b'.' && are_rest_bytes(rest)
}
