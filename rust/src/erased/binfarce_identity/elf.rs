// From crates/binfarce_identity/src/elf.rt, by tools/erase.

//! The build ID of an ELF file (System V gABI, "Note Section").

use crate::shim::Vec;
use crate::erased::binfarce_identity::identity::{Identity, Kind};
use crate::erased::binfarce_identity::notes::build_id;
use crate::erased::binfarce_bytes::ByteOrder;
use crate::erased::binfarce_bytes::parser::number_at;
use crate::erased::binfarce_bytes::source::Source;
use crate::erased::binfarce_elf_memory::parts::{HeaderTable, place_in};
use crate::erased::binfarce_elf_memory::segments::program_length;
use crate::erased::binfarce_tables::{Opened, ReadError, Width};
use crate::shim::alloc::Global;

// Headers of places in a file, of this class.
#[derive(Clone, Copy)]
pub(crate) enum Form {
    Sections(Width),
    Segments(Width),
}

// A table of such headers: where it begins, and how many it has.
#[derive(Clone, Copy)]
pub(crate) struct Table {
    form: Form,
    offset: u64,
    count: u16,
}

// Where notes are in the file, and their alignment.
#[derive(Clone, Copy)]
pub(crate) struct NotePlace {
    offset: u64,
    size: u64,
    align: u64,
}

// Reads the first build ID of a file of this class.
pub(crate) fn read_elf<S: Source>(
    opened: &Opened<'_, S>,
    log: &mut S::Log,
    width: Width,
    byte_order: ByteOrder,
) -> Result<Option<Identity>, ReadError> {
    let head = opened.within(log, 0, width.header_length() as u64)?;
    let place = place_in(&head, width, byte_order)?;
    let table = table_of(width, place);
    read_table(opened, log, byte_order, table)
}

// The section headers of a file, or if it has none its program headers.
fn table_of(width: Width, place: HeaderTable) -> Table {
    if place.shnum == 0 {
        Table {
            form: Form::Segments(width),
            offset: place.phoff,
            count: place.phnum,
        }
    } else {
        Table {
            form: Form::Sections(width),
            offset: place.shoff,
            count: place.shnum,
        }
    }
}

impl Form {
    // How many bytes a header has.
    fn length(self) -> usize {
        match self {
            Form::Sections(width) => width.section_length(),
            Form::Segments(width) => program_length(width),
        }
    }
}

// Reads the first build ID at the places of a table's headers.
fn read_table<S: Source>(
    opened: &Opened<'_, S>,
    log: &mut S::Log,
    byte_order: ByteOrder,
    table: Table,
) -> Result<Option<Identity>, ReadError> {
    let size = u64::from(table.count) * table.form.length() as u64;
    let headers = opened.within(log, table.offset, size)?;
    read_headers(opened, log, byte_order, table, &headers)
}

// Reads the first build ID at the places of these headers.
fn read_headers<S: Source>(
    opened: &Opened<'_, S>,
    log: &mut S::Log,
    byte_order: ByteOrder,
    table: Table,
    headers: &[u8],
) -> Result<Option<Identity>, ReadError> {
    let length = table.form.length();
    for index in 0..table.count {
        let place = place_at(headers, usize::from(index) * length, table.form, byte_order);
        let found = read_place(opened, log, byte_order, place)?;
        if found.is_some() {
            return Ok(found);
        }
    }
    Ok(None)
}

// Reads the first build ID of the notes at a place, if there is one.
fn read_place<S: Source>(
    opened: &Opened<'_, S>,
    log: &mut S::Log,
    byte_order: ByteOrder,
    place: Option<NotePlace>,
) -> Result<Option<Identity>, ReadError> {
    let Some(place) = place else {
        return Ok(None);
    };
    let notes = opened.within(log, place.offset, place.size)?;
    identity_in(opened.alloc, &notes, byte_order, place.align)
}

// The first build ID among notes of this alignment.
fn identity_in(
    alloc: Global,
    notes: &[u8],
    byte_order: ByteOrder,
    align: u64,
) -> Result<Option<Identity>, ReadError> {
    let Some(id) = build_id(notes, byte_order, align)? else {
        return Ok(None);
    };
    let bytes = Vec::from_slice(alloc, id)?;
    Ok(Some(Identity {
        kind: Kind::BuildId,
        bytes,
    }))
}

// The place of the header that begins at `start`, if its type is that of notes.
fn place_at(headers: &[u8], start: usize, form: Form, byte_order: ByteOrder) -> Option<NotePlace> {
    match form {
        Form::Sections(Width::Bits32) => narrow_at(headers, start, byte_order, 4, 7, 16, 20, 32),
        Form::Sections(Width::Bits64) => wide_at(headers, start, byte_order, 4, 7, 24, 32, 48),
        Form::Segments(Width::Bits32) => narrow_at(headers, start, byte_order, 0, 4, 4, 16, 28),
        Form::Segments(Width::Bits64) => wide_at(headers, start, byte_order, 0, 4, 8, 32, 48),
    }
}

// The same, by the offsets of the fields, of 4 bytes each, and the type.
fn narrow_at(
    headers: &[u8],
    start: usize,
    byte_order: ByteOrder,
    kind: usize,
    notes: u32,
    offset: usize,
    size: usize,
    align: usize,
) -> Option<NotePlace> {
    let is: u32 = number_at(headers, start + kind, byte_order).unwrap();
    if is != notes {
        return None;
    }
    let offset: u32 = number_at(headers, start + offset, byte_order).unwrap();
    let size: u32 = number_at(headers, start + size, byte_order).unwrap();
    let align: u32 = number_at(headers, start + align, byte_order).unwrap();
    Some(NotePlace {
        offset: u64::from(offset),
        size: u64::from(size),
        align: u64::from(align),
    })
}

// The same, where places and alignments have 8 bytes.
fn wide_at(
    headers: &[u8],
    start: usize,
    byte_order: ByteOrder,
    kind: usize,
    notes: u32,
    offset: usize,
    size: usize,
    align: usize,
) -> Option<NotePlace> {
    let is: u32 = number_at(headers, start + kind, byte_order).unwrap();
    if is != notes {
        return None;
    }
    Some(NotePlace {
        offset: number_at(headers, start + offset, byte_order).unwrap(),
        size: number_at(headers, start + size, byte_order).unwrap(),
        align: number_at(headers, start + align, byte_order).unwrap(),
    })
}
