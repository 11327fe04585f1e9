// From crates/test_names/src/parts.rt, by tools/erase.

//! What a printing of a v0 name takes.

use crate::shim::String;
use crate::erased::binfarce_v0::mangling::print;
use crate::erased::binfarce_v0_grammar::limits::{MAX_LEVELS, MAX_STEPS};
use crate::erased::binfarce_v0_state::state::{Buffers, Printer};
use crate::shim::alloc::Global;
use crate::shim::io::{self, Error, ErrorKind};

/// Appends the levels and steps of the part after a prefix.
pub fn push_limits(alloc: Global, line: &mut String, part: &str) -> io::Result<()> {
    if !part.is_ascii() {
        return Err(Error::from(ErrorKind::InvalidData));
    }
    let mut printer = Printer::new(Buffers::empty(alloc), part, true, false, None);
    if !print(&mut printer)? {
        return Ok(line.push_str("beyond the limits")?);
    }
    let levels = MAX_LEVELS.saturating_sub(printer.least_levels_left);
    let steps = MAX_STEPS.saturating_sub(printer.steps_left);
    Ok(write!(line, "{levels} levels, {steps} steps")?)
}

/// Appends how many paths, types, consts and lifetimes of the part after a prefix are read for both texts, for the
/// trimmed one, and for none.
pub fn push_visits(alloc: Global, line: &mut String, part: &str) -> io::Result<()> {
    let both = visits(alloc, part, true, false)?;
    let trimmed = visits(alloc, part, false, false)?;
    let none = visits(alloc, part, false, true)?;
    Ok(write!(line, "{both}, {trimmed}, {none}")?)
}

fn visits(alloc: Global, part: &str, full: bool, muted: bool) -> io::Result<usize> {
    if !part.is_ascii() {
        return Err(Error::from(ErrorKind::InvalidData));
    }
    let mut printer = Printer::new(Buffers::empty(alloc), part, full, muted, None);
    let _ = print(&mut printer)?;
    Ok(printer.visits)
}
