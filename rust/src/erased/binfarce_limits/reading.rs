// From crates/binfarce_limits/src/reading.rt, by tools/erase.

//! Reads limits from a text: a line for each row.

use crate::shim::{CollectIn, Vec};
use crate::erased::binfarce_limits::rows::RowLimit;
use crate::erased::binfarce_words::takes::{Limit, limit_in};
use crate::shim::alloc::{AllocError, Global};
use crate::shim::collections::BTreeMap;
use core::fmt;

/// Why limits aren't read. Lines are counted from 1 on.
#[derive(Debug, Clone, Copy, PartialEq)]
pub enum Unread<'a> {
    /// The line at this number has no limit after a name.
    NoLimit(usize),
    /// What comes after the name in this line is no limit.
    BadLimit(usize, &'a str),
    /// The limit in this line is one on growth, and files aren't compared.
    OnlyGrowth(usize, &'a str),
    /// This line has a name that a line before it has.
    Twice(usize, &'a str),
    /// An allocation failed.
    OutOfMemory,
}

impl<'a> fmt::Display for Unread<'a> {
    fn fmt(&self, f: &mut fmt::Formatter<'_>) -> fmt::Result {
        match self {
            Unread::NoLimit(line) => write!(
                f,
                "line {line} has no limit; a line is the name of a row, a blank and a limit"
            ),
            Unread::BadLimit(line, word) => write!(
                f,
                "line {line}: a limit is a number of bytes, also as 600k or 2M, or of diff one of per cent as 2%, and not {word}"
            ),
            Unread::OnlyGrowth(line, word) => write!(
                f,
                "line {line}: {word} is for diff; size takes a number of bytes"
            ),
            Unread::Twice(line, name) => write!(f, "line {line}: a line before it has {name}, too"),
            Unread::OutOfMemory => write!(f, "out of memory"),
        }
    }
}

impl From<AllocError> for Unread<'_> {
    fn from(_: AllocError) -> Self {
        Unread::OutOfMemory
    }
}

// What a line says.
#[derive(Debug, Clone, Copy, PartialEq)]
pub(crate) enum Line<'a> {
    // Nothing: it is blank, or begins with `#`.
    Nothing,
    // It has no limit after a name.
    NoLimit,
    // What comes after the name is no limit.
    BadLimit(&'a str),
    // The limit is one on growth, and files aren't compared.
    OnlyGrowth(&'a str),
    // A limit on the row of a name.
    Limits(RowLimit<'a>),
}

/// The limits in a text, in the order of their lines. `compares` says whether files are compared.
///
/// A line is a row's name, and after its last tab, or if it has none after its last blank, a limit as `--fail-above`
/// takes; white space around a line, a name and a limit counts for nothing. A line without anything, and one that begins
/// with `#`, has no limit.
///
/// # Errors
///
/// An `Unread` for the first line that can't be taken: it has no limit, or what is none; a limit in per cent where no
/// files are compared; or a name that a line before it has. `OutOfMemory` if an allocation fails.
pub fn read_limits<'a>(
    alloc: Global,
    text: &'a str,
    compares: bool,
) -> Result<Vec<RowLimit<'a>>, Unread<'a>> {
    let lines: Vec<&'a str> = text.split('\n').collect_in(alloc)?;
    limits_of(alloc, &lines, compares)
}

// The limits in lines.
fn limits_of<'a>(
    alloc: Global,
    lines: &[&'a str],
    compares: bool,
) -> Result<Vec<RowLimit<'a>>, Unread<'a>> {
    let mut limits = Vec::new(alloc);
    let mut names = BTreeMap::new(alloc);
    for (i, line) in lines.iter().enumerate() {
        take_line(&mut limits, &mut names, i + 1, line_of(line, compares))?;
    }
    Ok(limits)
}

// Adds the limit that the line of this number has, if it has one.
fn take_line<'a>(
    limits: &mut Vec<RowLimit<'a>>,
    names: &mut BTreeMap<&'a str, ()>,
    number: usize,
    line: Line<'a>,
) -> Result<(), Unread<'a>> {
    match line {
        Line::Nothing => Ok(()),
        Line::NoLimit => Err(Unread::NoLimit(number)),
        Line::BadLimit(word) => Err(Unread::BadLimit(number, word)),
        Line::OnlyGrowth(word) => Err(Unread::OnlyGrowth(number, word)),
        Line::Limits(limit) => {
            if names.get(limit.name).is_some() {
                return Err(Unread::Twice(number, limit.name));
            }
            add_limit(limits, names, limit)?;
            Ok(())
        }
    }
}

// Adds a limit, and its name.
fn add_limit<'a>(
    limits: &mut Vec<RowLimit<'a>>,
    names: &mut BTreeMap<&'a str, ()>,
    limit: RowLimit<'a>,
) -> Result<(), AllocError> {
    let _ = names.insert(limit.name, ())?;
    limits.push(limit)?;
    Ok(())
}

// What a line says.
fn line_of(line: &str, compares: bool) -> Line<'_> {
    let line = line.trim();
    if line.is_empty() || line.as_bytes().starts_with(b"#") {
        return Line::Nothing;
    }
    let Some((name, word)) = line_parts(line) else {
        return Line::NoLimit;
    };
    let word = word.trim();
    match limit_in(word) {
        None => Line::BadLimit(word),
        Some(Limit::Percent(_)) if !compares => Line::OnlyGrowth(word),
        Some(limit) => Line::Limits(RowLimit {
            name: name.trim(),
            limit,
        }),
    }
}

// What is before and after the last tab of a line, or if it has none its last blank.
fn line_parts(line: &str) -> Option<(&str, &str)> {
    match line.rsplit_once('\t') {
        Some(parts) => Some(parts),
        None => line.rsplit_once(' '),
    }
}
