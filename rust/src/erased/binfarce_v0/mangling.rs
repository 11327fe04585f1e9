// From crates/binfarce_v0/src/mangling.rt, by tools/erase.

//! A whole v0 mangling.

use crate::shim::String;
use crate::erased::binfarce_v0::paths::print_path;
use crate::erased::binfarce_text::prefixes::after_prefix;
use crate::erased::binfarce_text::suffixes::is_allowed_rest;
use crate::erased::binfarce_v0_grammar::identifiers::UndisambiguatedIdentifier;
use crate::erased::binfarce_v0_grammar::limits::MAX_LEVELS;
use crate::erased::binfarce_v0_grammar::numbers::byte_at;
use crate::erased::binfarce_v0_grammar::reading::read_path;
use crate::erased::binfarce_v0_state::memory::Memory;
use crate::erased::binfarce_v0_state::nesting::Nesting;
use crate::erased::binfarce_v0_state::position::Position;
use crate::erased::binfarce_v0_state::state::{Buffers, Printer};
use crate::erased::binfarce_v0_state::text::Leaf;
use crate::shim::alloc::{AllocError, Global};

// The part of a text after the prefix of a v0 mangling.
fn part_after_prefix(text: &str) -> Option<&str> {
    after_prefix(text, "_R", "R", "__R")
}

// Whether a path may begin at a position.
fn is_upper_at(part: &[u8], at: usize) -> bool {
    byte_at(part, at).is_ascii_uppercase()
}

// The position after the paths of a name. The position after the first path may be known.
fn paths_end(part: &str, first: Option<usize>) -> Option<usize> {
    let mid = match first {
        Some(mid) => mid,
        None => read_path(part, MAX_LEVELS, 0)?,
    };
    if is_upper_at(part.as_bytes(), mid) {
        read_path(part, MAX_LEVELS, mid)
    } else {
        Some(mid)
    }
}

/// The part after the prefix of a text that may begin with a v0 mangling. `None` if `text` begins with none: most
/// names that aren't mangled are ruled out by their first bytes. Nothing is allocated.
#[cfg_attr(not(debug_assertions), inline(always))]
pub fn candidate(text: &str) -> Option<&str> {
    let part = part_after_prefix(text)?;
    if is_upper_at(part.as_bytes(), 0) && part.is_ascii() {
        Some(part)
    } else {
        None
    }
}

/// The v0 mangling that `text` begins with: the part after its prefix, and the position in that part after its paths.
/// `None` if `text` begins with no v0 mangling whose reading has at most `MAX_LEVELS` levels. Nothing is allocated.
pub fn read(text: &str) -> Option<(&str, usize)> {
    let part = candidate(text)?;
    let after = paths_end(part, None)?;
    Some((part, after))
}

/// Prints what the part of a new printing unfolds to. Returns whether that is a tree of at most `MAX_LEVELS` levels and
/// `MAX_STEPS` steps. The printing then has the text of the tree without the disambiguators of crates; a full printing
/// has both texts, with and without them; of each only the bytes that the printing counts are the tree's. A muted
/// printing reads the same, and its texts are empty.
#[cfg_attr(not(debug_assertions), inline(always))]
pub fn print(printer: &mut Printer<'_>) -> Result<bool, AllocError> {
    printer.prepare()?;
    let whole = Nesting {
        levels_left: MAX_LEVELS,
        binder_depth: 0,
    };
    print_path(printer, whole, Position::InValue)?;
    Ok(!printer.limit_exceeded)
}

/// The part of `text` after the prefix of a v0 mangling, up to its end: back references may name positions in all of
/// it. `None` if `text` isn't a v0 mangling whose reading has at most `MAX_LEVELS` levels. Nothing is allocated.
pub fn mangled_part(text: &str) -> Option<&str> {
    let (part, after) = read(text)?;
    if is_allowed_rest(rest_from(part, after).as_bytes()) {
        Some(part)
    } else {
        None
    }
}

// The part from a position on.
fn rest_from(part: &str, at: usize) -> &str {
    if at <= part.len() { &part[at..] } else { "" }
}

/// Prints what the part of a new printing unfolds to, as `print` does. `candidate` gave this part of a text. Returns
/// what follows the mangling in the text. `None` if the text isn't a v0 mangling whose reading has at most
/// `MAX_LEVELS` levels, and which unfolds to a tree of at most `MAX_LEVELS` levels and `MAX_STEPS` steps.
///
/// Printing without invalid syntax outside back references also reads the first path: then only a second path is left
/// to read.
#[cfg_attr(not(debug_assertions), inline(always))]
pub fn print_mangling<'a>(printer: &mut Printer<'a>) -> Result<Option<&'a str>, AllocError> {
    if !print(printer)? {
        return Ok(None);
    }
    let Some(after) = paths_end(printer.part, printer.at) else {
        return Ok(None);
    };
    let rest = rest_from(printer.part, after);
    if !is_allowed_rest(rest.as_bytes()) {
        return Ok(None);
    }
    Ok(Some(rest))
}

/// Both texts of a name, and its crate.
pub struct Texts {
    pub complete: String,
    pub trimmed: String,
    pub crate_name: Option<String>,
}

// The text of a crate's name.
fn root_text(
    alloc: Global,
    root: Option<UndisambiguatedIdentifier<'_>>,
) -> Result<Option<String>, AllocError> {
    let Some(name) = root else {
        return Ok(None);
    };
    let mut text = String::new(alloc);
    name.push(&mut text)?;
    Ok(Some(text))
}

// Appends a crate's name to the text. Returns whether there is one. A failed allocation leaves the text unchanged.
fn push_root(
    alloc: Global,
    text: &mut String,
    root: Option<UndisambiguatedIdentifier<'_>>,
) -> Result<bool, AllocError> {
    let Some(name) = root else {
        return Ok(false);
    };
    if name.punycode.is_empty() {
        text.push_str(name.ascii)?;
        return Ok(true);
    }
    let mut decoded = String::new(alloc);
    name.push(&mut decoded)?;
    text.push_str(decoded.as_str())?;
    Ok(true)
}

/// Appends to `text` the name of the first crate root in the tree that the v0 mangling `name` unfolds to. Returns
/// whether there is one: there is none where the tree has no crate root, and where `name` isn't a v0 mangling that
/// unfolds to a tree within the limits. Nothing else is written. The only error is a failed allocation; `text` is then
/// unchanged.
pub fn push_crate_name(alloc: Global, text: &mut String, name: &str) -> Result<bool, AllocError> {
    let Some(part) = candidate(name) else {
        return Ok(false);
    };
    let mut printer = Printer::new(Buffers::empty(alloc), part, false, true, None);
    match print_mangling(&mut printer)? {
        Some(_) => push_root(alloc, text, printer.root),
        None => Ok(false),
    }
}

/// Both texts of the tree that the v0 mangling `text` unfolds to, and its crate. `None` if `text` isn't a v0
/// mangling that unfolds to a tree within the limits.
///
/// The name is printed once. The texts are copies in memory of their lengths. The only error is a failed allocation.
pub fn both_texts(memory: &mut Memory, text: &str) -> Result<Option<Texts>, AllocError> {
    let Some(part) = candidate(text) else {
        return Ok(None);
    };
    let alloc = memory.alloc;
    let mut printer = Printer::new(memory.take(), part, true, false, None);
    let Some(_rest) = print_mangling(&mut printer)? else {
        memory.put_back(printer.into_buffers());
        return Ok(None);
    };
    let crate_name = root_text(alloc, printer.root)?;
    let (complete, trimmed) = printer.texts(alloc)?;
    memory.put_back(printer.into_buffers());
    Ok(Some(Texts {
        complete,
        trimmed,
        crate_name,
    }))
}
