// From crates/binfarce_v0_grammar/src/forms.rt, by tools/erase.

//! The form of the grammar at a position of a v0 name: the front of a production, up to its first path, type or const
//! (RFC 2603, "Syntax of mangled names").

pub(crate) mod consts;
pub(crate) mod signature;

use crate::erased::binfarce_v0_grammar::identifiers::undisambiguated_at;
use crate::erased::binfarce_v0_grammar::numbers::{base_62_number, byte_at, past};
pub use consts::{ConstForm, ConstValue, const_form};
pub use signature::Signature;

/// `[<lifetime>]`
#[derive(Clone, Copy)]
pub enum Lifetime {
    /// No `L`.
    Nothing,
    /// An `L` whose number is invalid.
    Invalid,
    /// A lifetime by its index.
    Indexed(u64),
}

/// `"F"` and the front of a `<fn-sig>`, up to its types. The last number of a form is the position after it.
#[derive(Clone, Copy)]
pub enum FunctionForm<'a> {
    /// One whose binder is invalid.
    Nothing,
    /// A valid one.
    FunctionOf(Signature<'a>, usize),
    /// One with an invalid ABI, by its binder.
    InvalidAbi(u64),
}

/// The kind of a list's items.
#[derive(Clone, Copy)]
pub enum Listed {
    /// `<generic-arg>`
    Arguments,
    /// `<type>`
    Types,
    /// `<dyn-trait>`
    Traits,
}

/// The optional lifetime at a position, and the position after it: `None` after an invalid lifetime.
#[cfg_attr(not(debug_assertions), inline(always))]
pub fn lifetime_form(part: &[u8], at: Option<usize>) -> (Lifetime, Option<usize>) {
    let Some(at) = at else {
        return (Lifetime::Nothing, None);
    };
    if byte_at(part, at) != b'L' {
        return (Lifetime::Nothing, Some(at));
    }
    match base_62_number(part, at + 1) {
        Some((index, after)) => (Lifetime::Indexed(index), Some(after)),
        None => (Lifetime::Invalid, None),
    }
}

/// `<basic-type>`, by its letter.
#[cfg_attr(not(debug_assertions), inline(always))]
pub fn basic_type(letter: u8) -> Option<&'static str> {
    match letter {
        b'b' => Some("bool"),
        b'c' => Some("char"),
        b'e' => Some("str"),
        b'u' => Some("()"),
        b'a' => Some("i8"),
        b's' => Some("i16"),
        b'l' => Some("i32"),
        b'x' => Some("i64"),
        b'n' => Some("i128"),
        b'i' => Some("isize"),
        b'h' => Some("u8"),
        b't' => Some("u16"),
        b'm' => Some("u32"),
        b'y' => Some("u64"),
        b'o' => Some("u128"),
        b'j' => Some("usize"),
        b'f' => Some("f32"),
        b'd' => Some("f64"),
        b'z' => Some("!"),
        b'p' => Some("_"),
        b'v' => Some("..."),
        _ => None,
    }
}

// `["K" <abi>]`
fn abi<'a>(part: &'a str, at: usize) -> Option<(Option<&'a str>, usize)> {
    let bytes = part.as_bytes();
    if byte_at(bytes, at) != b'K' {
        return Some((None, at));
    }
    if byte_at(bytes, at + 1) == b'C' {
        return Some((Some("C"), at + 2));
    }
    let (name_of_abi, after) = undisambiguated_at(part, at + 1)?;
    if name_of_abi.ascii.is_empty() || !name_of_abi.punycode.is_empty() {
        return None;
    }
    Some((Some(name_of_abi.ascii), after))
}

/// `"F"` and the front of a `<fn-sig>`, after its binder.
pub fn function_form<'a>(part: &'a str, binder: Option<(u64, usize)>) -> FunctionForm<'a> {
    let Some((binder, at)) = binder else {
        return FunctionForm::Nothing;
    };
    let bytes = part.as_bytes();
    let is_unsafe = byte_at(bytes, at) == b'U';
    match abi(part, past(bytes, b'U', at)) {
        Some((abi, after)) => FunctionForm::FunctionOf(
            Signature {
                binder,
                is_unsafe,
                abi,
            },
            after,
        ),
        None => FunctionForm::InvalidAbi(binder),
    }
}
