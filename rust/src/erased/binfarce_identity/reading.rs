// From crates/binfarce_identity/src/reading.rt, by tools/erase.

//! The identity of a file that is read at offsets.

use crate::erased::binfarce_identity::elf::read_elf;
use crate::erased::binfarce_identity::identity::Identity;
use crate::erased::binfarce_identity::macho::read_macho;
use crate::erased::binfarce_identity::pe::read_pe;
use crate::erased::binfarce_bytes::ParseError;
use crate::erased::binfarce_bytes::format::Format;
use crate::erased::binfarce_bytes::source::Source;
use crate::erased::binfarce_tables::{Opened, ReadError, Width, open};
use crate::shim::alloc::Global;

/// What says from which build a file of this format is: of ELF the first build ID among the notes of its sections, or of
/// a file without section headers among those of its segments; of Mach-O its UUID; of PE the GUID and the age of its
/// CodeView record. `None` if the file has none, and for an unknown format. Only what states it is read, each part into
/// memory of its size, which is never more than the file has of it.
///
/// # Errors
///
/// `Refused` with `UnexpectedEof` if the file is too short for its header, or what is read ends past it, and with
/// `MalformedInput` for a note that ends past its section, a bad load command, or a debug directory in no section;
/// `Unreadable` if the source can't be read at offsets, or a read of it fails, and never for a source that can't fail,
/// such as bytes in memory; `OutOfMemory` if an allocation fails.
pub fn read_identity<S: Source>(
    alloc: Global,
    source: &S,
    log: &mut S::Log,
    format: Format,
) -> Result<Option<Identity>, ReadError> {
    if let Format::Unknown = format {
        return Ok(None);
    }
    let opened = open(alloc, source)?;
    read_as(&opened, log, format)
}

// The identity of a file of this length.
fn read_as<S: Source>(
    opened: &Opened<'_, S>,
    log: &mut S::Log,
    format: Format,
) -> Result<Option<Identity>, ReadError> {
    match format {
        Format::Elf32 { byte_order } => { read_elf(opened, log, Width::Bits32, byte_order) }
        Format::Elf64 { byte_order } => { read_elf(opened, log, Width::Bits64, byte_order) }
        Format::Macho => read_macho(opened, log),
        Format::PE => read_pe(opened, log),
        Format::Unknown => Ok(None),
    }
}
