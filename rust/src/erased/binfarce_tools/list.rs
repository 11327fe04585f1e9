// From crates/binfarce_tools/src/list.rt, by tools/erase.

//! Lists the function symbols of an executable, a line each.

use crate::shim::String;
use crate::erased::binfarce_tools::functions::{Selected, readers_functions};
use crate::erased::binfarce_tools::tables::Tables;
use crate::erased::binfarce_tools::writing::write_whole;
use crate::erased::binfarce::{ParseError, SectionFunction};
use crate::erased::binfarce_names::demangle::Demangler;
use crate::erased::binfarce_rows::head::push_head;
use crate::shim::alloc::{AllocError, Global};
use crate::shim::error::Error;
use core::fmt;
use crate::shim::io::Write;

/// A sink of bytes.
pub trait Sink {
    /// Takes some of the bytes, of which there is at least one.
    ///
    /// `Some(n)`: the first `n` were taken, `n` being from 1 to their number. `None`: none was taken, and from here
    /// on `failed` is true.
    fn write(&mut self, bytes: &[u8]) -> Option<usize>;

    /// Whether a write has failed.
    fn failed(&self) -> bool;
}

/// A sink over a writer.
pub struct Out<W> {
    writer: W,
    failed: bool,
}

impl<W: Write> Out<W> {
    /// A sink over this writer, in which no write has failed.
    pub fn new(writer: W) -> Out<W> {
        Out {
            writer,
            failed: false,
        }
    }

    /// The writer.
    pub fn into_inner(self) -> W {
        self.writer
    }
}

impl<W: Write> Sink for Out<W> {
    /// `None` is the writer's error, of any kind, or its 0.
    fn write(&mut self, bytes: &[u8]) -> Option<usize> {
        match self.writer.write(bytes) {
            Ok(n) if n > 0 => Some(n),
            _ => {
                self.failed = true;
                None
            }
        }
    }

    fn failed(&self) -> bool {
        self.failed
    }
}

/// Why a file was not listed.
#[derive(Debug, PartialEq)]
pub enum ListError {
    /// The file's first bytes name no supported format.
    Unknown,
    /// The reader of the file's format refused it.
    Parse(ParseError),
    /// An allocation failed.
    OutOfMemory,
    /// A write of the sink failed. It took a beginning of the listing.
    Write,
}

impl fmt::Display for ListError {
    fn fmt(&self, f: &mut fmt::Formatter<'_>) -> fmt::Result {
        match self {
            ListError::Unknown => write!(f, "unknown file format"),
            ListError::Parse(e) => write!(f, "{e}"),
            ListError::OutOfMemory => write!(f, "out of memory"),
            ListError::Write => write!(f, "write failed"),
        }
    }
}

impl Error for ListError {}

impl From<AllocError> for ListError {
    fn from(_: AllocError) -> Self {
        ListError::OutOfMemory
    }
}

impl From<ParseError> for ListError {
    /// A failed allocation becomes `OutOfMemory`, and any other error becomes `Parse`.
    fn from(e: ParseError) -> Self {
        match e {
            ParseError::OutOfMemory => ListError::OutOfMemory,
            _ => ListError::Parse(e),
        }
    }
}

/// Lists the function symbols of a file's section: a line for each, and then the section's size.
///
/// The format is the one that the file's first bytes name; the section is that of an ELF file, and of a Mach-O or PE
/// file it is the text. A line is `{address:016x} {size:>10} {trimmed}`, the last one `text {size}`. The listing is
/// made before its first byte is written.
///
/// # Errors
///
/// `Unknown` if the format isn't supported; `Parse` if its reader refuses the file; `OutOfMemory` if an
/// allocation failed. Nothing is written then. `Write` if a write failed: a beginning of the listing may then be
/// written.
pub fn list<S: Sink>(
    alloc: Global,
    file: &[u8],
    section: &str,
    out: &mut S,
) -> Result<(), ListError> {
    let selected = readers_functions(alloc, file, section)?;
    let text = listing(alloc, &Tables::whole(file, section), selected)?;
    write_whole(out, text.as_bytes())
}

/// Lists the function symbols of a file's tables, for the selection that they were read for, as `list` does for an ELF
/// file's section. In a Mach-O or PE file a section is the code section, and its function symbols are those that
/// `selected_functions` of a reader gives. For all sections a line is
/// `{address:016x} {size:>10} {section} {trimmed}`, with the section's name, or its number in brackets where it has
/// none; and there is no last line.
///
/// # Errors
///
/// As `list`.
pub fn list_tables<S: Sink>(
    alloc: Global,
    tables: &Tables<'_>,
    out: &mut S,
) -> Result<(), ListError> {
    let selected = tables.functions(alloc)?;
    list_selected(alloc, tables, selected, out)
}

/// As `list_tables`, of the function symbols that `Tables::functions` gave.
///
/// # Errors
///
/// `OutOfMemory` and `Write`, as `list`.
pub fn list_selected<S: Sink>(
    alloc: Global,
    tables: &Tables<'_>,
    selected: Selected<'_>,
    out: &mut S,
) -> Result<(), ListError> {
    let text = listing(alloc, tables, selected)?;
    write_whole(out, text.as_bytes())
}

// The whole listing of a selection.
fn listing(alloc: Global, tables: &Tables<'_>, selected: Selected<'_>) -> Result<String, AllocError> {
    let Selected { functions, size } = selected;
    let mut text = String::new(alloc);
    let mut demangler = Demangler::new(alloc);
    for function in functions {
        push_line(&mut demangler, &mut text, tables, size, function)?;
    }
    push_last_line(&mut text, size)?;
    Ok(text)
}

// Appends the line of a function symbol to the text, with its section if there is no size.
fn push_line(
    demangler: &mut Demangler,
    text: &mut String,
    tables: &Tables<'_>,
    size: Option<u64>,
    function: SectionFunction<'_>,
) -> Result<(), AllocError> {
    push_head(text, function.function.address, function.function.size)?;
    push_section_part(text, tables, size, function.section)?;
    demangler.push_trimmed(text, function.function.name)?;
    text.push_str("\n")
}

/// Appends a section and a blank to the text where all sections are selected, which have no size; else nothing.
///
/// # Errors
///
/// `AllocError` if an allocation failed. The text is then unspecified.
pub fn push_section_part(
    text: &mut String,
    tables: &Tables<'_>,
    size: Option<u64>,
    number: u32,
) -> Result<(), AllocError> {
    match size {
        Some(_) => Ok(()),
        None => {
            push_section(text, tables, number)?;
            text.push_str(" ")
        }
    }
}

/// Appends a section's name, or its number in brackets where it has none, to the text.
///
/// # Errors
///
/// `AllocError` if an allocation failed. The text is then unspecified.
pub fn push_section(text: &mut String, tables: &Tables<'_>, number: u32) -> Result<(), AllocError> {
    match tables.section_name(number) {
        Some(name) => text.push_str(name),
        None => write!(text, "[{number}]"),
    }
}

// Appends the last line to the text: that of the selected section's size; nothing if all sections are selected.
pub(crate) fn push_last_line(text: &mut String, size: Option<u64>) -> Result<(), AllocError> {
    match size {
        Some(size) => writeln!(text, "text {size}"),
        None => Ok(()),
    }
}
