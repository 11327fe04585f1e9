// From crates/binfarce_tables/src/segments.rt, by tools/erase.

//! Where an ELF file is loaded, read from its program headers.

use crate::erased::binfarce_tables::elf::read_place;
use crate::erased::binfarce_tables::error::ReadError;
use crate::erased::binfarce_tables::opened::{Opened, open};
use crate::erased::binfarce_bytes::ByteOrder;
use crate::erased::binfarce_bytes::source::Source;
use crate::erased::binfarce_elf::class::Width;
use crate::erased::binfarce_elf_memory::parts::HeaderTable;
use crate::erased::binfarce_elf_memory::segments::{self, LoadAddress, load_address};
use crate::shim::alloc::Global;

/// Where a file of this class is loaded unless the loader chooses another address, numbers in the given order: the page
/// of 4096 bytes of its lowest loaded segment, and its first code segment. `None` without a loaded one, as in an object
/// file. The file header of 52 or 64 bytes and the program headers are read, and no other byte. The magic number isn't
/// checked.
///
/// # Errors
///
/// `Refused` with `UnexpectedEof` if the file is too short for its header, or its program headers end past it;
/// `Unreadable` if the source can't be read at offsets, or a read of it fails, and never for a source that can't
/// fail, such as bytes in memory; `OutOfMemory` if an allocation fails.
pub fn read_load_address<S: Source>(
    alloc: Global,
    source: &S,
    log: &mut S::Log,
    width: Width,
    byte_order: ByteOrder,
) -> Result<Option<LoadAddress>, ReadError> {
    let opened = open(alloc, source)?;
    let place = read_place(&opened, log, width, byte_order)?;
    read_segments(&opened, log, width, place)
}

// Where it is loaded, by the program headers at this place.
fn read_segments<S: Source>(
    opened: &Opened<'_, S>,
    log: &mut S::Log,
    width: Width,
    place: HeaderTable,
) -> Result<Option<LoadAddress>, ReadError> {
    let size = u64::from(place.phnum) * segments::program_length(width) as u64;
    let headers = opened.within(log, place.phoff, size)?;
    Ok(load_address(&headers, width, place.byte_order))
}
