// From crates/binfarce_identity/src/pe.rt, by tools/erase.

//! The GUID and the age of a PE file's CodeView record (Microsoft PE Format, "The .debug Section").

use crate::shim::Vec;
use crate::erased::binfarce_identity::identity::{Identity, Kind};
use crate::erased::binfarce_bytes::parser::number_at;
use crate::erased::binfarce_bytes::source::Source;
use crate::erased::binfarce_bytes::{ByteOrder, ParseError};
use crate::erased::binfarce_pe::parts::{
    HEADERS_LENGTH, SECTION_LENGTH, SIGNATURE_POINTER, TableOffsets, places_in, signature_in,
};
use crate::erased::binfarce_tables::{Opened, ReadError};
use crate::shim::alloc::Global;

// As many bytes of an optional header as state the debug directory.
const OPTIONAL_HEADER_READ: u64 = 168;

// How many bytes an entry of the debug directory has.
const ENTRY_LENGTH: usize = 28;

const IMAGE_DEBUG_TYPE_CODEVIEW: u32 = 2;

// How many bytes a CodeView record has before the name of the PDB file.
const RECORD_LENGTH: u32 = 24;

// A place of so many bytes.
#[derive(Clone, Copy)]
pub(crate) struct Place {
    at: u32,
    size: u32,
}

// Reads the GUID and the age of a file.
pub(crate) fn read_pe<S: Source>(
    opened: &Opened<'_, S>,
    log: &mut S::Log,
) -> Result<Option<Identity>, ReadError> {
    let pointer = opened.within(log, SIGNATURE_POINTER as u64, 4)?;
    let signature = signature_in(&pointer)?;
    let headers = opened.within(log, u64::from(signature), HEADERS_LENGTH)?;
    let places = places_in(&headers, signature)?;
    read_places(opened, log, places)
}

// Those of a file whose tables are at these places.
fn read_places<S: Source>(
    opened: &Opened<'_, S>,
    log: &mut S::Log,
    places: TableOffsets,
) -> Result<Option<Identity>, ReadError> {
    let size = places.sections.saturating_sub(places.optional_header);
    let size = size.min(OPTIONAL_HEADER_READ);
    let header = opened.within(log, places.optional_header, size)?;
    let directory = debug_directory(&header);
    read_directory(opened, log, places, directory)
}

// The place in memory of the debug directory, if there is one.
fn debug_directory(header: &[u8]) -> Option<Place> {
    debug_in(header, directories_offset(header)?)
}

// Where the data directories begin in an optional header.
fn directories_offset(header: &[u8]) -> Option<usize> {
    match number_at::<u16>(header, 0, ByteOrder::LittleEndian) {
        Ok(0x10b) => Some(96),
        Ok(0x20b) => Some(112),
        _ => None,
    }
}

// The place that the seventh one of the data directories states, which begin here.
fn debug_in(header: &[u8], start: usize) -> Option<Place> {
    if header.len() < start + 56 {
        return None;
    }
    let count: u32 = number_at(header, start - 4, ByteOrder::LittleEndian).unwrap();
    let size: u32 = number_at(header, start + 52, ByteOrder::LittleEndian).unwrap();
    if count < 7 || size == 0 {
        return None;
    }
    let at: u32 = number_at(header, start + 48, ByteOrder::LittleEndian).unwrap();
    Some(Place { at, size })
}

// Reads what the debug directory at this place in memory has.
fn read_directory<S: Source>(
    opened: &Opened<'_, S>,
    log: &mut S::Log,
    places: TableOffsets,
    directory: Option<Place>,
) -> Result<Option<Identity>, ReadError> {
    let Some(place) = directory else {
        return Ok(None);
    };
    let size = u64::from(places.section_count) * SECTION_LENGTH as u64;
    let headers = opened.within(log, places.sections, size)?;
    let offset = offset_of(&headers, place, places.section_count);
    read_entries(opened, log, place.size, offset)
}

// Where a place in memory is in the file, by the first of these section headers whose raw data has it.
fn offset_of(headers: &[u8], place: Place, count: u16) -> Option<u64> {
    for index in 0..count {
        let found = offset_in(headers, usize::from(index) * SECTION_LENGTH, place);
        if found.is_some() {
            return found;
        }
    }
    None
}

// The same, by the section header that begins at `start`.
fn offset_in(headers: &[u8], start: usize, place: Place) -> Option<u64> {
    let address: u32 = number_at(headers, start + 12, ByteOrder::LittleEndian).unwrap();
    let size: u32 = number_at(headers, start + 16, ByteOrder::LittleEndian).unwrap();
    let end = u64::from(place.at) + u64::from(place.size);
    if address > place.at || end > u64::from(address) + u64::from(size) {
        return None;
    }
    let data: u32 = number_at(headers, start + 20, ByteOrder::LittleEndian).unwrap();
    Some(u64::from(data) + u64::from(place.at - address))
}

// Reads what the debug directory of this size at this offset in the file has.
fn read_entries<S: Source>(
    opened: &Opened<'_, S>,
    log: &mut S::Log,
    size: u32,
    offset: Option<u64>,
) -> Result<Option<Identity>, ReadError> {
    let Some(offset) = offset else {
        return Err(ReadError::Refused(ParseError::MalformedInput));
    };
    let entries = opened.within(log, offset, u64::from(size))?;
    read_record(opened, log, codeview_data(&entries))
}

// The data of the first entry of CodeView among these.
fn codeview_data(entries: &[u8]) -> Option<Place> {
    for index in 0..entries.len() / ENTRY_LENGTH {
        let found = data_in(entries, index * ENTRY_LENGTH);
        if found.is_some() {
            return found;
        }
    }
    None
}

// The data of the entry that begins at `start`, if it is of CodeView.
fn data_in(entries: &[u8], start: usize) -> Option<Place> {
    let kind: u32 = number_at(entries, start + 12, ByteOrder::LittleEndian).unwrap();
    if kind != IMAGE_DEBUG_TYPE_CODEVIEW {
        return None;
    }
    Some(Place {
        at: number_at(entries, start + 24, ByteOrder::LittleEndian).unwrap(),
        size: number_at(entries, start + 16, ByteOrder::LittleEndian).unwrap(),
    })
}

// Reads the record at this place in the file.
fn read_record<S: Source>(
    opened: &Opened<'_, S>,
    log: &mut S::Log,
    place: Option<Place>,
) -> Result<Option<Identity>, ReadError> {
    let Some(place) = place else {
        return Ok(None);
    };
    if place.size < RECORD_LENGTH {
        return Err(ReadError::Refused(ParseError::MalformedInput));
    }
    let bytes = opened.within(log, u64::from(place.at), u64::from(RECORD_LENGTH))?;
    codeview_in(opened.alloc, &bytes)
}

// The identity in a record, if it has the signature of PDB 7.0.
fn codeview_in(alloc: Global, bytes: &[u8]) -> Result<Option<Identity>, ReadError> {
    if !bytes[..4].starts_with(b"RSDS") {
        return Ok(None);
    }
    let bytes = Vec::from_slice(alloc, &bytes[4..])?;
    Ok(Some(Identity {
        kind: Kind::CodeView,
        bytes,
    }))
}
