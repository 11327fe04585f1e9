// From crates/binfarce_words/src/takes.rt, by tools/erase.

//! Values of options.

use crate::erased::binfarce_rows::address::parse_address;
use core::fmt;

// The size of a page, or a part of it: pages are larger on some machines.
const PAGE: u64 = 0x1000;

// A unit of sizes.
const KIB: usize = 0x400;

// A larger one.
const MIB: usize = 0x10_0000;

/// The most that is allowed.
#[derive(Debug, Clone, Copy, PartialEq)]
pub enum Limit {
    /// So many bytes.
    Bytes(usize),
    /// So many per cent of an old sum.
    Percent(usize),
}

impl fmt::Display for Limit {
    fn fmt(&self, f: &mut fmt::Formatter<'_>) -> fmt::Result {
        match self {
            Limit::Bytes(most) => write!(f, "{most}"),
            Limit::Percent(most) => write!(f, "{most}%"),
        }
    }
}

/// What an option takes.
#[derive(Debug, Clone, Copy, PartialEq)]
pub enum Takes {
    /// No value.
    Nothing,
    /// Any text.
    Text,
    /// The address of a page.
    Page,
    /// A number in decimal digits.
    Count,
    /// A limit on sums.
    Limit,
    /// What lines are sorted by.
    Order,
    /// What sizes are summed by.
    Key,
}

/// What lines are sorted by.
#[derive(Debug, Clone, Copy, PartialEq)]
pub enum Order {
    /// By rising address.
    Address,
    /// By falling size.
    Size,
    /// By name.
    Name,
}

/// What sizes are summed by.
#[derive(Debug, Clone, Copy, PartialEq)]
pub enum Key {
    /// By crate.
    Crate,
    /// By module.
    Module,
    /// By function.
    Function,
    /// By function, without generic arguments.
    Generic,
    /// By section: of functions, or of bytes.
    Section,
}

// The order of this name.
pub(crate) fn order_named(name: &str) -> Option<Order> {
    match name {
        "address" => Some(Order::Address),
        "size" => Some(Order::Size),
        "name" => Some(Order::Name),
        _ => None,
    }
}

// The key of this name.
pub(crate) fn key_named(name: &str) -> Option<Key> {
    match name {
        "crate" => Some(Key::Crate),
        "function" => Some(Key::Function),
        "function-section" => Some(Key::Section),
        "generic" => Some(Key::Generic),
        "module" => Some(Key::Module),
        "section" => Some(Key::Section),
        _ => None,
    }
}

impl Takes {
    // The values that it takes, in words.
    pub(crate) fn values(self) -> &'static str {
        match self {
            Takes::Nothing => "no value",
            Takes::Text => "a text",
            Takes::Page => "the address of a page, a multiple of 0x1000",
            Takes::Count => "a number",
            Takes::Limit => "a number of bytes, also as 600k or 2M, or of per cent as 2%",
            Takes::Order => "address, size or name",
            Takes::Key => "crate, function, function-section, generic, module or section",
        }
    }

    // Whether it takes this value.
    pub(crate) fn is_met_by(self, value: &str) -> bool {
        match self {
            Takes::Nothing | Takes::Text => true,
            Takes::Page => is_page(parse_address(value.as_bytes())),
            Takes::Count => count_in(value).is_some(),
            Takes::Limit => limit_in(value).is_some(),
            Takes::Order => order_named(value).is_some(),
            Takes::Key => key_named(value).is_some(),
        }
    }
}

// Whether this is the address of a page.
fn is_page(address: Option<u64>) -> bool {
    matches!(address, Some(address) if address % PAGE == 0)
}

// The number in decimal digits.
pub(crate) fn count_in(value: &str) -> Option<usize> {
    value.parse::<usize>().ok()
}

// The number of bytes: a number, perhaps before a unit.
fn size_in(value: &str) -> Option<usize> {
    let (unit, bytes) = unit_of(value);
    let number = before_unit(value, unit)?;
    times(count_in(number)?, bytes)
}

// So many times a unit, if that is a number.
fn times(n: usize, bytes: usize) -> Option<usize> {
    n.checked_mul(bytes)
}

// The unit that a value ends with, and how many bytes it has.
fn unit_of(value: &str) -> (&'static str, usize) {
    let bytes = value.as_bytes();
    if bytes.ends_with(b"k") {
        ("k", KIB)
    } else if bytes.ends_with(b"K") {
        ("K", KIB)
    } else if bytes.ends_with(b"KiB") {
        ("KiB", KIB)
    } else if bytes.ends_with(b"m") {
        ("m", MIB)
    } else if bytes.ends_with(b"M") {
        ("M", MIB)
    } else if bytes.ends_with(b"MiB") {
        ("MiB", MIB)
    } else {
        ("", 1)
    }
}

// What comes before a unit that a value ends with.
fn before_unit<'a>(value: &'a str, unit: &str) -> Option<&'a str> {
    value.strip_suffix(unit)
}

/// The limit that a value is: a number of bytes, or of per cent before `%`.
pub fn limit_in(value: &str) -> Option<Limit> {
    match value.split_once('%') {
        None => Some(Limit::Bytes(size_in(value)?)),
        Some((front, "")) => Some(Limit::Percent(count_in(front)?)),
        Some(_) => None,
    }
}

// Whether a limit is a number of per cent.
pub(crate) fn is_relative(word: &str) -> bool {
    matches!(limit_in(word), Some(Limit::Percent(_)))
}
