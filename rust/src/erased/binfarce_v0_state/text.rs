// From crates/binfarce_v0_state/src/text.rt, by tools/erase.

//! The texts of the leaves of a v0 name, which a printing writes whole.

use crate::shim::String;
use crate::erased::binfarce_v0_state::disambiguators::put_disambiguator;
use crate::erased::binfarce_v0_grammar::forms::{ConstValue, Lifetime, Signature};
use crate::erased::binfarce_v0_grammar::identifiers::{Identifier, UndisambiguatedIdentifier};
use crate::erased::binfarce_v0_grammar::numbers::hex_number;
use crate::erased::binfarce_v0_grammar::punycode::decode;
use crate::shim::alloc::AllocError;

/// A leaf, whose text a printing writes whole, without reading on.
pub trait Leaf {
    /// Appends its text to another.
    fn push(self, out: &mut String) -> Result<(), AllocError>;
}

// A number in decimal. Most have one digit, which needs no formatting.
fn push_decimal(text: &mut String, n: u64) -> Result<(), AllocError> {
    if n < 10 {
        return text.push((b'0' + n as u8) as char);
    }
    write!(text, "{n}")
}

// A lifetime by its index under a depth of binders.
fn push_lifetime(text: &mut String, binder_depth: usize, index: u64) -> Result<(), AllocError> {
    if index == 0 {
        return text.push_str("'_");
    }
    if index > binder_depth as u64 {
        return text.push_str("'?");
    }
    let number = binder_depth as u64 - index;
    if number < 26 {
        text.push('\'')?;
        text.push((b'a' + number as u8) as char)
    } else {
        text.push_str("'_")?;
        push_decimal(text, number)
    }
}

/// The lifetime of an argument under a depth of binders.
#[derive(Clone, Copy)]
pub struct ArgumentLifetime(pub usize, pub Lifetime);

impl Leaf for ArgumentLifetime {
    fn push(self, out: &mut String) -> Result<(), AllocError> {
        match self.1 {
            Lifetime::Indexed(index) => push_lifetime(out, self.0, index),
            _ => out.push_str("?"),
        }
    }
}

/// The lifetime of a reference under a depth of binders.
#[derive(Clone, Copy)]
pub struct ReferenceLifetime(pub usize, pub Lifetime);

impl Leaf for ReferenceLifetime {
    fn push(self, out: &mut String) -> Result<(), AllocError> {
        match self.1 {
            Lifetime::Indexed(index) => {
                if index == 0 {
                    return Ok(());
                }
                push_lifetime(out, self.0, index)?;
                out.push_str(" ")
            }
            _ => Ok(()),
        }
    }
}

/// The lifetime of a dyn type under a depth of binders.
#[derive(Clone, Copy)]
pub struct DynLifetime(pub usize, pub Lifetime);

impl Leaf for DynLifetime {
    fn push(self, out: &mut String) -> Result<(), AllocError> {
        match self.1 {
            Lifetime::Indexed(index) => {
                if index == 0 {
                    return Ok(());
                }
                out.push_str(" + ")?;
                push_lifetime(out, self.0, index)
            }
            _ => out.push_str("?"),
        }
    }
}

/// The lifetimes that a binder announces.
#[derive(Clone, Copy)]
pub struct Binder {
    pub binder_depth: usize,
    pub count: usize,
}

impl Leaf for Binder {
    fn push(self, out: &mut String) -> Result<(), AllocError> {
        if self.count == 0 {
            return Ok(());
        }
        out.push_str("for<")?;
        push_lifetime(out, self.binder_depth + 1, 1)?;
        for i in 1..self.count {
            out.push_str(", ")?;
            push_lifetime(out, self.binder_depth + i + 1, 1)?;
        }
        out.push_str("> ")
    }
}

/// A crate's disambiguator, in lower-case hexadecimal.
#[derive(Clone, Copy)]
pub struct Disambiguator(pub u64);

impl Leaf for Disambiguator {
    fn push(self, out: &mut String) -> Result<(), AllocError> {
        let mut shown = [0; 18];
        let start = put_disambiguator(&mut shown, self.0);
        out.push_str(core::str::from_utf8(&shown[start..]).unwrap())
    }
}

/// A name after a mark, or nothing for an empty name.
#[derive(Clone, Copy)]
pub struct AfterMark<'a>(pub &'static str, pub UndisambiguatedIdentifier<'a>);

impl<'a> Leaf for AfterMark<'a> {
    #[cfg_attr(not(debug_assertions), inline(always))]
    fn push(self, out: &mut String) -> Result<(), AllocError> {
        if self.1.ascii.is_empty() && self.1.punycode.is_empty() {
            return Ok(());
        }
        out.push_str(self.0)?;
        self.1.push(out)
    }
}

// The name of a special namespace.
fn push_namespace(text: &mut String, namespace: u8) -> Result<(), AllocError> {
    match namespace {
        b'C' => text.push_str("closure"),
        b'S' => text.push_str("shim"),
        _ => text.push(namespace as char),
    }
}

/// What a nested path adds to its parent.
#[derive(Clone, Copy)]
pub struct Nested<'a>(pub u8, pub Identifier<'a>);

impl<'a> Leaf for Nested<'a> {
    fn push(self, out: &mut String) -> Result<(), AllocError> {
        let Identifier {
            disambiguator,
            name,
        } = self.1;
        if !self.0.is_ascii_uppercase() {
            return AfterMark("::", name).push(out);
        }
        out.push_str("::{")?;
        push_namespace(out, self.0)?;
        AfterMark(":", name).push(out)?;
        out.push_str("#")?;
        push_decimal(out, disambiguator)?;
        out.push_str("}")
    }
}

impl<'a> Leaf for ConstValue<'a> {
    fn push(self, out: &mut String) -> Result<(), AllocError> {
        match self {
            ConstValue::Integer(negative, digits) => {
                out.push_str(if negative { "-" } else { "" })?;
                push_number(out, digits)
            }
            ConstValue::Boolean(value) => out.push_str(if value { "true" } else { "false" }),
            ConstValue::Character(c) => {
                out.push_str("'")?;
                push_character(out, c)?;
                out.push_str("'")
            }
        }
    }
}

// The digits of an integer: at most 16 are shown in decimal.
fn push_number(text: &mut String, hex: &str) -> Result<(), AllocError> {
    match hex_number(hex.as_bytes()) {
        Some(value) => push_decimal(text, value),
        None => {
            text.push_str("0x")?;
            text.push_str(hex)
        }
    }
}

// Whether a character is shown unescaped between quotes.
fn is_unescaped(c: char) -> bool {
    matches!(c, ' '..='~') && c != '\'' && c != '\\'
}

// A character between quotes: printable ASCII as it is, any other by its number in lower-case hexadecimal.
fn push_character(text: &mut String, c: char) -> Result<(), AllocError> {
    if is_unescaped(c) {
        return text.push(c);
    }
    let code = c as u32;
    text.push_str("\\u{")?;
    write!(text, "{code:x}")?;
    text.push_str("}")
}

// The name of an ABI.
fn push_abi(text: &mut String, name: &str) -> Result<(), AllocError> {
    text.push_str("extern \"")?;
    for c in name.as_bytes() {
        text.push(if *c == b'_' { '-' } else { *c as char })?;
    }
    text.push_str("\" ")
}

// `"unsafe "`, the ABI and `"fn("`.
impl<'a> Leaf for Signature<'a> {
    fn push(self, out: &mut String) -> Result<(), AllocError> {
        if self.is_unsafe {
            out.push_str("unsafe ")?;
        }
        if let Some(name) = self.abi {
            push_abi(out, name)?;
        }
        out.push_str("fn(")
    }
}

// The text of Punycode that can't be decoded.
fn push_undecoded(text: &mut String, name: UndisambiguatedIdentifier<'_>) -> Result<(), AllocError> {
    text.push_str("punycode{")?;
    if !name.ascii.is_empty() {
        text.push_str(name.ascii)?;
        text.push_str("-")?;
    }
    text.push_str(name.punycode)?;
    text.push_str("}")
}

impl<'a> Leaf for UndisambiguatedIdentifier<'a> {
    fn push(self, out: &mut String) -> Result<(), AllocError> {
        if self.punycode.is_empty() {
            out.push_str(self.ascii)
        } else {
            push_punycode(out, self)
        }
    }
}

// The text of a Punycode identifier.
#[inline(never)]
fn push_punycode(text: &mut String, name: UndisambiguatedIdentifier<'_>) -> Result<(), AllocError> {
    match decode(name.ascii.as_bytes(), name.punycode.as_bytes()) {
        Some(decoded) => push_characters(text, decoded.characters()),
        None => push_undecoded(text, name),
    }
}

// Characters, one after the other.
fn push_characters(text: &mut String, characters: &[char]) -> Result<(), AllocError> {
    for c in characters {
        text.push(*c)?;
    }
    Ok(())
}
