// From crates/binfarce_sections/src/list.rt, by tools/erase.

//! Lists the sections of an executable, a line each.

use crate::shim::String;
use crate::erased::binfarce_sections::error::SectionError;
use crate::erased::binfarce_sections::kinds::SectionType;
use crate::erased::binfarce_sections::sections::{Section, Sections, sections_of};
use crate::erased::binfarce_sections::tables::read;
use crate::erased::binfarce::ParseError;
use crate::erased::binfarce_bytes::source::Source;
use crate::erased::binfarce_rows::json::{
    Form, push_address_member, push_number_member, push_start, push_text_member,
};
use crate::erased::binfarce_tools::list::Sink;
use crate::erased::binfarce_tools::writing::write_whole;
use crate::shim::alloc::{AllocError, Global};

/// Lists the sections of a file in file order, a line each, up to the first one that the reader refuses.
///
/// The format is the one that the file's first bytes name. A line is `{address:016x} {offset:>10} {size:>10} {name}`,
/// with the offset in the file and the size in bytes; in a Mach-O file the name is `SEGMENT,SECTION`. Names are written
/// as they are, whatever characters they hold. All lines are made before the first byte is written.
///
/// # Errors
///
/// `Unknown` if the format isn't supported, and `OutOfMemory` if an allocation failed: nothing is written then.
/// `Parse` if the reader refuses the next section: the lines of those before are written. `Write` if a write
/// failed: a beginning of the lines may then be written.
pub fn list_sections<S: Sink>(alloc: Global, file: &[u8], out: &mut S) -> Result<(), SectionError> {
    let sections = match sections_of(file) {
        Ok(sections) => sections,
        Err(e) => return Err(e),
    };
    write_lines(alloc, sections, Form::Lines, out)
}

/// As `list_sections`, from a source, in either form; an object has the members `file`, `segment`, `section`,
/// `address`, `offset`, `size`, `type` (its name, or its number where it has none) and `flags`, and `null` for a name
/// or a type that isn't there. Of the source only these bytes are read: the
/// first 8 bytes, and those that `read_sections` of `binfarce_tables` reads of a file of that format.
///
/// # Errors
///
/// Those of `list_sections`, and `Unreadable` if the source can't be read at offsets, or a read of it fails: nothing
/// is written then.
pub fn list_source<F: Source, S: Sink>(
    alloc: Global,
    source: &F,
    log: &mut F::Log,
    form: Form<'_>,
    out: &mut S,
) -> Result<(), SectionError> {
    let tables = read(alloc, source, log)?;
    let sections = tables.sections()?;
    write_lines(alloc, sections, form, out)
}

// Writes the lines of all sections that are left.
fn write_lines<S: Sink>(
    alloc: Global,
    sections: Sections<'_>,
    form: Form<'_>,
    out: &mut S,
) -> Result<(), SectionError> {
    let (text, refusal) = lines_of(alloc, sections, form)?;
    write_whole(out, text.as_bytes()).map_err(|_| SectionError::Write)?;
    refusal.map_or(Ok(()), |e| Err(SectionError::Parse(e)))
}

// The lines of all sections that are left, and the refusal that ends them.
fn lines_of(
    alloc: Global,
    sections: Sections<'_>,
    form: Form<'_>,
) -> Result<(String, Option<ParseError>), AllocError> {
    let mut text = String::new(alloc);
    for section in sections {
        match section {
            Ok(section) => push_row(&mut text, form, section)?,
            Err(e) => return Ok((text, Some(e))),
        }
    }
    Ok((text, None))
}

// Appends a section to the text.
fn push_row(text: &mut String, form: Form<'_>, section: Section<'_>) -> Result<(), AllocError> {
    match form {
        Form::Lines => push_line(text, section),
        Form::Objects(file, _) => push_object(text, file, section),
    }
}

// Appends a section as a JSON object.
fn push_object(text: &mut String, file: &str, section: Section<'_>) -> Result<(), AllocError> {
    push_start(text, file)?;
    push_text_member(text, "segment", section.segment)?;
    push_text_member(text, "section", section.name)?;
    push_address_member(text, section.address)?;
    push_number_member(text, "offset", section.offset)?;
    push_number_member(text, "size", section.size)?;
    push_type_member(text, section.kind)?;
    push_number_member(text, "flags", section.flags)?;
    text.push_str("}\n")?;
    Ok(())
}

/// Appends the member `type`, after a comma: the type's name, or if it has none its number; `null` in PE.
pub(crate) fn push_type_member(text: &mut String, kind: SectionType) -> Result<(), AllocError> {
    match (kind.name(), kind.number()) {
        (Some(name), _) => push_text_member(text, "type", Some(name)),
        (None, Some(number)) => push_number_member(text, "type", u64::from(number)),
        (None, None) => push_text_member(text, "type", None),
    }
}

// Appends the line of a section to the text.
fn push_line(text: &mut String, section: Section<'_>) -> Result<(), AllocError> {
    push_head(text, section.address, section.offset, section.size)?;
    push_name(text, section.segment, section.name)?;
    text.push_str("\n")
}

// Writes the numbers before a section's name.
fn push_head(text: &mut String, address: u64, offset: u64, size: u64) -> Result<(), AllocError> {
    write!(text, "{address:016x} {offset:>10} {size:>10} ")
}

// Writes a section's name, in Mach-O after its segment's.
pub(crate) fn push_name(
    text: &mut String,
    segment: Option<&str>,
    name: Option<&str>,
) -> Result<(), AllocError> {
    let Some(name) = name else {
        return Ok(());
    };
    if let Some(segment) = segment {
        text.push_str(segment)?;
        text.push_str(",")?;
    }
    text.push_str(name)
}
