// From crates/binfarce_jobs/src/code.rt, by tools/erase.

//! Whether a file has code.

use crate::erased::binfarce_bytes::source::Source;
use crate::erased::binfarce_sections::kinds::SectionType;
use crate::erased::binfarce_sections::sections::{Section, Sections};
use crate::erased::binfarce_sections::tables::read;
use crate::erased::binfarce_tables::ReadError;
use crate::shim::alloc::Global;

// The flags of sections of code in ELF (gABI, "Sections"), in Mach-O (`<mach-o/loader.h>`), and in PE (PE Format,
// "Section Flags").
const SHF_EXECINSTR: u64 = 4;

const S_ATTR_INSTRUCTIONS: u64 = 0x8000_0400;

const IMAGE_SCN_CNT_CODE: u64 = 0x20;

/// Whether the file has code: a section of instructions that has bytes in memory, before any that can't be read. Of the
/// source it reads the section headers and the section names alone.
///
/// # Errors
///
/// Where a read or an allocation fails.
pub(crate) fn has_code<S: Source<Log = ()>>(alloc: Global, source: &S) -> Result<bool, ReadError> {
    let tables = match read(alloc, source, &mut ()) {
        Ok(tables) => tables,
        Err(ReadError::Refused(_)) => return Ok(false),
        Err(e) => return Err(e),
    };
    match tables.sections() {
        Ok(sections) => Ok(any_code(sections)),
        Err(_) => Ok(false),
    }
}

// Whether one of the sections that are left has code.
fn any_code(sections: Sections<'_>) -> bool {
    for section in sections {
        match section {
            Ok(section) if is_code(&section) => return true,
            Ok(_) => {}
            Err(_) => return false,
        }
    }
    false
}

fn is_code(section: &Section<'_>) -> bool {
    section.flags & code_flags(section.kind) != 0 && section.memory_size > 0
}

// The flags of which a section of code has one.
fn code_flags(kind: SectionType) -> u64 {
    match kind {
        SectionType::Elf(_) => SHF_EXECINSTR,
        SectionType::Macho(_) => S_ATTR_INSTRUCTIONS,
        SectionType::Pe => IMAGE_SCN_CNT_CODE,
    }
}
