// From crates/binfarce_needs/src/lines.rt, by tools/erase.

//! What is written of the symbols that a file needs.

use crate::shim::String;
use crate::erased::binfarce_needs::needs::{Need, needs_of};
use crate::erased::binfarce_needs::reading::read_needs;
use crate::erased::binfarce_bytes::ByteOrder;
use crate::erased::binfarce_bytes::format::Format;
use crate::erased::binfarce_bytes::source::Source;
use crate::erased::binfarce_figures::rows::{Naming, put_name, word_of};
use crate::erased::binfarce_names::demangle::Demangler;
use crate::erased::binfarce_rows::json::{Form, push_start, push_text_member};
use crate::erased::binfarce_tables::format::read_format;
use crate::erased::binfarce_tables::{ReadError, Width};
use crate::shim::alloc::{AllocError, Global};

/// A format of files of which it isn't read what they need.
#[derive(Debug, Clone, Copy, PartialEq)]
pub enum Other {
    /// Mach-O.
    Macho,
    /// PE.
    Pe,
}

/// Why it isn't shown what a file needs.
#[derive(Debug, Clone, Copy, PartialEq)]
pub enum Lack {
    /// The format isn't one that is read.
    UnknownFormat,
    /// The file is no ELF file, but one of this format.
    NotElf(Other),
    /// The file was not read, or is refused.
    Read(ReadError),
}

impl From<ReadError> for Lack {
    fn from(e: ReadError) -> Self {
        Lack::Read(e)
    }
}

impl From<AllocError> for Lack {
    fn from(_: AllocError) -> Self {
        Lack::Read(ReadError::OutOfMemory)
    }
}

/// Why it isn't shown what a file of this format needs, and what would help, in words.
pub fn unread(other: Other) -> &'static str {
    match other {
        Other::Macho => {
            "what is needed is read of ELF files alone; nm -um shows it of Mach-O files"
        }
        Other::Pe => {
            "what is needed is read of ELF files alone; objdump -p shows the imports of PE files"
        }
    }
}

/// A line for each symbol that an ELF file needs: what is shown of its name, and its version as `nm` writes it,
/// `memcpy@GLIBC_2.14`; or an object with the members `file`, `name`, `raw` (the stored name), `binding`, `version` and
/// `from`, the file that the version comes from. The first 8 bytes, which name the format, and those of `read_needs`
/// are read.
///
/// # Errors
///
/// Why there are none: the file isn't ELF, or `read_needs` refuses or can't read it.
pub fn needs_text<S: Source>(
    alloc: Global,
    source: &S,
    log: &mut S::Log,
    naming: Naming,
    form: Form<'_>,
) -> Result<String, Lack> {
    let format = read_format(alloc, source, log)?;
    text_as(alloc, source, log, naming, form, format)
}

// That of a file of this format.
fn text_as<S: Source>(
    alloc: Global,
    source: &S,
    log: &mut S::Log,
    naming: Naming,
    form: Form<'_>,
    format: Format,
) -> Result<String, Lack> {
    let (width, byte_order) = class_of(format)?;
    let tables = read_needs(alloc, source, log, width, byte_order)?;
    let needs = needs_of(alloc, &tables, width, byte_order)?;
    Ok(text_of(alloc, &needs, naming, form)?)
}

// The class and the byte order of an ELF file.
fn class_of(format: Format) -> Result<(Width, ByteOrder), Lack> {
    match format {
        Format::Elf32 { byte_order } => Ok((Width::Bits32, byte_order)),
        Format::Elf64 { byte_order } => Ok((Width::Bits64, byte_order)),
        Format::Macho => Err(Lack::NotElf(Other::Macho)),
        Format::PE => Err(Lack::NotElf(Other::Pe)),
        Format::Unknown => Err(Lack::UnknownFormat),
    }
}

// The rows of these symbols.
fn text_of(
    alloc: Global,
    needs: &[Need<'_>],
    naming: Naming,
    form: Form<'_>,
) -> Result<String, AllocError> {
    let mut demangler = Demangler::new(alloc);
    let mut name = String::new(alloc);
    let mut text = String::new(alloc);
    for need in needs {
        put_name(&mut demangler, &mut name, naming, need.name)?;
        push_row(&mut text, form, name.as_str(), need)?;
    }
    Ok(text)
}

// Appends the row of a symbol with this name.
fn push_row(
    text: &mut String,
    form: Form<'_>,
    name: &str,
    need: &Need<'_>,
) -> Result<(), AllocError> {
    match form {
        Form::Lines => {
            text.push_str(name)?;
            push_version(text, need.version)?;
            text.push_str("\n")
        }
        Form::Objects(file, _) => {
            push_start(text, file)?;
            push_text_member(text, "name", Some(name))?;
            push_text_member(text, "raw", Some(need.name))?;
            push_text_member(text, "binding", word_of(need.info / 16))?;
            push_text_member(text, "version", need.version)?;
            push_text_member(text, "from", need.from)?;
            text.push_str("}\n")
        }
    }
}

// Appends a version after a name, if there is one.
fn push_version(text: &mut String, version: Option<&str>) -> Result<(), AllocError> {
    let Some(version) = version else {
        return Ok(());
    };
    text.push_str("@")?;
    text.push_str(version)
}
