// From crates/binfarce_identity/src/macho.rt, by tools/erase.

//! The UUID of a Mach-O file (Apple's `<mach-o/loader.h>`, `uuid_command`).

use crate::shim::Vec;
use crate::erased::binfarce_identity::identity::{Identity, Kind};
use crate::erased::binfarce_bytes::parser::{number_at, slice_at, to_index};
use crate::erased::binfarce_bytes::source::Source;
use crate::erased::binfarce_bytes::{ByteOrder, ParseError};
use crate::erased::binfarce_tables::{Opened, ReadError};
use crate::shim::alloc::Global;

// How many bytes of the header are read, and how many it has.
const HEADER_READ: u64 = 28;

const HEADER_LENGTH: usize = 32;

// How many bytes a load command has before its body.
const COMMAND_HEAD: u32 = 8;

const LC_UUID: u32 = 0x1b;

// How many bytes the command of the UUID has, and how many the UUID.
const UUID_COMMAND: u32 = 24;

const UUID_LENGTH: usize = 16;

// Reads the UUID of a file.
pub(crate) fn read_macho<S: Source>(
    opened: &Opened<'_, S>,
    log: &mut S::Log,
) -> Result<Option<Identity>, ReadError> {
    let head = opened.within(log, 0, HEADER_READ)?;
    let size: u32 = number_at(&head, 20, ByteOrder::LittleEndian).unwrap();
    let end = HEADER_LENGTH as u64 + u64::from(size);
    let bytes = opened.within(log, 0, end)?;
    identity_in(opened.alloc, &bytes)
}

// The UUID in these first bytes of a file, up to the end of its load commands.
fn identity_in(alloc: Global, bytes: &[u8]) -> Result<Option<Identity>, ReadError> {
    let count: u32 = number_at(bytes, 16, ByteOrder::LittleEndian).unwrap();
    let Some(uuid) = uuid_of(bytes, count)? else {
        return Ok(None);
    };
    let bytes = Vec::from_slice(alloc, uuid)?;
    Ok(Some(Identity {
        kind: Kind::Uuid,
        bytes,
    }))
}

// The UUID in the first so many load commands of these bytes.
fn uuid_of(bytes: &[u8], count: u32) -> Result<Option<&[u8]>, ParseError> {
    let mut offset = HEADER_LENGTH;
    for _k in 0..count {
        let Ok(kind) = number_at::<u32>(bytes, offset, ByteOrder::LittleEndian) else {
            return Ok(None);
        };
        let Ok(size) = number_at::<u32>(bytes, offset + 4, ByteOrder::LittleEndian) else {
            return Ok(None);
        };
        if size < COMMAND_HEAD {
            return Err(ParseError::MalformedInput);
        }
        if kind == LC_UUID {
            return uuid_at(bytes, offset, size);
        }
        offset = to_index(offset as u64 + size as u64);
    }
    Ok(None)
}

// The UUID in the command that begins here and has this size.
fn uuid_at(bytes: &[u8], offset: usize, size: u32) -> Result<Option<&[u8]>, ParseError> {
    if size != UUID_COMMAND {
        return Err(ParseError::MalformedInput);
    }
    Ok(Some(slice_at(bytes, offset + 8, UUID_LENGTH)?))
}
