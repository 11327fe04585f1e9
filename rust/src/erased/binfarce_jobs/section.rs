// From crates/binfarce_jobs/src/section.rt, by tools/erase.

//! The sections of a file: the bytes of one, or a line for each.

use crate::erased::binfarce_bytes::source::Source;
use crate::erased::binfarce_rows::json::Form;
use crate::erased::binfarce_sections::bytes::write_section_of;
use crate::erased::binfarce_sections::error::SectionError;
use crate::erased::binfarce_sections::list::list_source;
use crate::erased::binfarce_tools::list::Sink;
use crate::shim::alloc::Global;

/// What is written of a file's sections.
#[derive(Debug, Clone, Copy)]
pub enum Asked<'a> {
    /// The bytes of the first section of this name.
    Bytes(&'a str),
    /// A line for each section.
    Lines,
}

/// Writes what is asked for of the sections. Only the section headers, the section names, and the bytes of the named
/// section are read.
///
/// # Errors
///
/// Those of `write_section_of` and `list_source`.
pub fn write_sections<S: Source<Log = ()>, K: Sink>(
    alloc: Global,
    source: &S,
    asked: Asked<'_>,
    form: Form<'_>,
    out: &mut K,
) -> Result<(), SectionError> {
    match asked {
        Asked::Bytes(name) => write_section_of(alloc, source, &mut (), name, out),
        Asked::Lines => list_source(alloc, source, &mut (), form, out),
    }
}
