// From crates/binfarce_identity/src/line.rt, by tools/erase.

//! What says from which build a file is, in a line.

use crate::shim::String;
use crate::erased::binfarce_identity::identity::{Identity, Kind};
use crate::erased::binfarce_identity::reading::read_identity;
use crate::erased::binfarce_bytes::format::Format;
use crate::erased::binfarce_bytes::source::Source;
use crate::erased::binfarce_rows::json::{push_start, push_text_member};
use crate::erased::binfarce_tables::ReadError;
use crate::erased::binfarce_tables::format::read_format;
use crate::shim::alloc::{AllocError, Global};

/// How the identity of a file is written.
#[derive(Debug, Clone, Copy, PartialEq)]
pub enum Style<'a> {
    /// Alone.
    Alone,
    /// Before this name of its file.
    Named(&'a str),
    /// As a JSON object, with this name of its file.
    Object(&'a str),
}

/// Why there is no line with the identity of a file.
#[derive(Debug, Clone, Copy, PartialEq)]
pub enum Lack {
    /// The format isn't one that is read.
    UnknownFormat,
    /// The file has no identity, which would be of this kind.
    NoIdentity(Kind),
    /// The file was not read, or is refused.
    Read(ReadError),
}

/// What a file lacks that has no identity of this kind, in words.
pub fn lacked(kind: Kind) -> &'static str {
    match kind {
        Kind::BuildId => "no build ID",
        Kind::Uuid => "no UUID",
        Kind::CodeView => "no GUID of a PDB file",
    }
}

impl From<ReadError> for Lack {
    fn from(e: ReadError) -> Self {
        Lack::Read(e)
    }
}

impl From<AllocError> for Lack {
    fn from(_: AllocError) -> Self {
        Lack::Read(ReadError::OutOfMemory)
    }
}

/// The line that says from which build a file is. The first 8 bytes, which name the format, and those that `read_identity`
/// reads are read.
///
/// # Errors
///
/// Why there is no line: the format is unknown, the file has no identity, or `read_identity` refuses or can't read it.
pub fn identity_line<S: Source>(
    alloc: Global,
    source: &S,
    log: &mut S::Log,
    style: Style<'_>,
) -> Result<String, Lack> {
    let format = read_format(alloc, source, log)?;
    line_as(alloc, source, log, style, format)
}

// The line of a file of this format.
fn line_as<S: Source>(
    alloc: Global,
    source: &S,
    log: &mut S::Log,
    style: Style<'_>,
    format: Format,
) -> Result<String, Lack> {
    let Some(kind) = kind_of(&format) else {
        return Err(Lack::UnknownFormat);
    };
    match read_identity(alloc, source, log, format)? {
        Some(identity) => Ok(line_of(alloc, &identity, style)?),
        None => Err(Lack::NoIdentity(kind)),
    }
}

// The kind of identity that files of a format have.
fn kind_of(format: &Format) -> Option<Kind> {
    match format {
        Format::Elf32 { .. } | Format::Elf64 { .. } => Some(Kind::BuildId),
        Format::Macho => Some(Kind::Uuid),
        Format::PE => Some(Kind::CodeView),
        Format::Unknown => None,
    }
}

// The line of an identity.
fn line_of(alloc: Global, identity: &Identity, style: Style<'_>) -> Result<String, AllocError> {
    let mut id = String::new(alloc);
    identity.push_text(&mut id)?;
    match style {
        Style::Alone => {
            id.push_str("\n")?;
            Ok(id)
        }
        Style::Named(name) => {
            id.push_str("  ")?;
            id.push_str(name)?;
            id.push_str("\n")?;
            Ok(id)
        }
        Style::Object(name) => object_of(alloc, name, identity.kind, id.as_str()),
    }
}

// The object of an identity of this kind and this text.
fn object_of(alloc: Global, name: &str, kind: Kind, id: &str) -> Result<String, AllocError> {
    let mut text = String::new(alloc);
    push_start(&mut text, name)?;
    push_text_member(&mut text, "id_kind", Some(kind_name(kind)))?;
    push_text_member(&mut text, "id", Some(id))?;
    text.push_str("}\n")?;
    Ok(text)
}

// The name of a kind.
fn kind_name(kind: Kind) -> &'static str {
    match kind {
        Kind::BuildId => "build-id",
        Kind::Uuid => "uuid",
        Kind::CodeView => "codeview",
    }
}
