// From crates/binfarce_tools/src/report.rt, by tools/erase.

//! Reports how much of an executable's code each crate takes.

use crate::shim::String;
use crate::erased::binfarce_tools::functions::{Functions, readers_functions};
use crate::erased::binfarce_tools::list::{ListError, Sink, push_last_line};
use crate::erased::binfarce_tools::tables::Tables;
use crate::erased::binfarce_tools::writing::write_whole;
use crate::erased::binfarce::{FunctionSymbol, ParseError};
use crate::erased::binfarce_names::demangle::push_crate;
use crate::shim::alloc::{AllocError, Global};
use crate::shim::collections::BTreeMap;
use crate::shim::error::Error;
use core::fmt;

// The label in a report for symbols without a crate.
const UNKNOWN_CRATE: &str = "[unknown]";

/// Why a report was not made.
#[derive(Debug, PartialEq)]
pub enum ReportError {
    /// The file's first bytes name no supported format.
    Unknown,
    /// The reader of the file's format refused it.
    Parse(ParseError),
    /// An allocation failed.
    OutOfMemory,
    /// The sum of all sizes is 2^64 or more.
    TooLarge,
    /// A write of the sink failed. It took a beginning of the report.
    Write,
}

impl fmt::Display for ReportError {
    /// The errors of `list` have its text.
    fn fmt(&self, f: &mut fmt::Formatter<'_>) -> fmt::Result {
        match self {
            ReportError::Unknown => write!(f, "{}", ListError::Unknown),
            ReportError::Parse(e) => write!(f, "{}", ListError::Parse(*e)),
            ReportError::OutOfMemory => write!(f, "{}", ListError::OutOfMemory),
            ReportError::TooLarge => write!(f, "sizes are too large"),
            ReportError::Write => write!(f, "{}", ListError::Write),
        }
    }
}

impl Error for ReportError {}

impl From<AllocError> for ReportError {
    fn from(_: AllocError) -> Self {
        ReportError::OutOfMemory
    }
}

impl From<ListError> for ReportError {
    /// A file that can't be listed can't be reported, for the same reason.
    fn from(e: ListError) -> Self {
        match e {
            ListError::Unknown => ReportError::Unknown,
            ListError::Parse(e) => ReportError::Parse(e),
            ListError::OutOfMemory => ReportError::OutOfMemory,
            ListError::Write => ReportError::Write,
        }
    }
}

/// Reports how many bytes the function symbols of a file's section take: a line for each crate, in the byte order of
/// the crates' names, and two lines for the whole.
///
/// The symbols are those that `list` lists. The line of a crate is `{sum:>10} {name}`, with the sum of the sizes of its
/// symbols; after these come `sum {total}`, with the sum of all sizes, and `text {size}`, with that of the section. The
/// crate of a symbol is that of its v0 name, or the first part of the path of its legacy name, unless that begins with
/// `<`. All other symbols are counted for `[unknown]`. The report is made before its first byte is written.
///
/// # Errors
///
/// Those of `list`; `TooLarge` if the sum of all sizes is 2^64 or more. Only after `Write` a beginning of the report
/// may be written.
pub fn report<S: Sink>(
    alloc: Global,
    file: &[u8],
    section: &str,
    out: &mut S,
) -> Result<(), ReportError> {
    let (functions, size) = readers_functions(alloc, file, section)?.into_list();
    let sums = crate_sums(alloc, functions)?;
    write_made(out, report_text(alloc, &sums, size))
}

/// As `report`, from the tables of a file: for the selection that they were read for. Of all sections there is no last
/// line.
///
/// # Errors
///
/// As `report`.
pub fn report_tables<S: Sink>(
    alloc: Global,
    tables: &Tables<'_>,
    out: &mut S,
) -> Result<(), ReportError> {
    let (functions, size) = tables.functions(alloc)?.into_list();
    let sums = crate_sums(alloc, functions)?;
    write_made(out, report_text(alloc, &sums, size))
}

// How many bytes the function symbols of a selection take, by crate.
struct CrateSums {
    // The sum of the sizes of each crate's symbols, by the crate's name.
    crates: BTreeMap<String, u64>,
    // The sum of all sizes.
    total: u64,
}

// The sums of the functions. `TooLarge` if the sum of all exceeds 64 bits.
fn crate_sums(alloc: Global, functions: Functions<'_>) -> Result<CrateSums, ReportError> {
    let mut crates = BTreeMap::new(alloc);
    let mut total = 0u64;
    let mut text = String::new(alloc);
    for function in functions {
        total = total
            .checked_add(function.size)
            .ok_or(ReportError::TooLarge)?;
        add_function(alloc, &mut crates, &mut text, function)?;
    }
    Ok(CrateSums { crates, total })
}

// Adds a function's size to the sum of its crate. The text is overwritten by the crate's name; it is reused for all
// functions, so a name that the sums already have allocates nothing.
fn add_function(
    alloc: Global,
    crates: &mut BTreeMap<String, u64>,
    text: &mut String,
    function: FunctionSymbol<'_>,
) -> Result<(), AllocError> {
    put_crate(alloc, text, function.name)?;
    add_size(alloc, crates, text.as_str(), function.size)
}

/// Adds a size to the sum of a name, up to 2^64 - 1. The name is copied if there is no sum yet.
///
/// # Errors
///
/// `AllocError` if an allocation failed. The sums are then unspecified.
pub fn add_size(
    alloc: Global,
    crates: &mut BTreeMap<String, u64>,
    name: &str,
    size: u64,
) -> Result<(), AllocError> {
    match crates.get_mut(name) {
        Some(sum) => *sum = sum.saturating_add(size),
        None => {
            let _ = crates.insert(String::from_str(alloc, name)?, size)?;
        }
    }
    Ok(())
}

/// Overwrites the text by the crate that a function of this name is counted for.
///
/// # Errors
///
/// `AllocError` if an allocation failed. The text is then unspecified.
pub fn put_crate(alloc: Global, text: &mut String, name: &str) -> Result<(), AllocError> {
    text.clear();
    if push_crate(alloc, text, name)? {
        Ok(())
    } else {
        text.push_str(UNKNOWN_CRATE)
    }
}

/// Writes a text whole, if it was made.
///
/// # Errors
///
/// `OutOfMemory` if it wasn't made, and `Write` if a write failed.
pub fn write_made<S: Sink>(out: &mut S, made: Result<String, AllocError>) -> Result<(), ReportError> {
    let text = made?;
    write_whole(out, text.as_bytes())?;
    Ok(())
}

// The whole report, where the selected section has this size.
fn report_text(alloc: Global, sums: &CrateSums, size: Option<u64>) -> Result<String, AllocError> {
    let mut text = String::new(alloc);
    for (name, sum) in sums.crates.iter() {
        push_crate_line(&mut text, name.as_str(), *sum)?;
    }
    writeln!(text, "sum {}", sums.total)?;
    push_last_line(&mut text, size)?;
    Ok(text)
}

// Appends `{sum:>10} {name}` and a line feed to the text.
fn push_crate_line(text: &mut String, name: &str, sum: u64) -> Result<(), AllocError> {
    writeln!(text, "{sum:>10} {name}")
}
