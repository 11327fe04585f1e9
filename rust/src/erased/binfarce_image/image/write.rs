// From crates/binfarce_image/src/image/write.rt, by tools/erase.

//! The bytes of a file: structures of zero bytes, into which the numbers of fields are put.

use crate::shim::Vec;
use super::parts::{body_length, entry_length, kind, link, name};
use super::tables::{Class, ELF32, ELF64, Field};
use super::{ElfLayout, Image, Part, Row};
use crate::erased::binfarce::ByteOrder;
use crate::shim::alloc::{AllocError, Global};

const LONGEST: usize = 64;

/// The tables of a layout's class.
pub(super) fn class(layout: ElfLayout) -> Class {
    match layout {
        ElfLayout::Elf32Little => ELF32,
        ElfLayout::Elf32Big => ELF32,
        ElfLayout::Elf64Little => ELF64,
        ElfLayout::Elf64Big => ELF64,
    }
}

fn order(layout: ElfLayout) -> ByteOrder {
    match layout {
        ElfLayout::Elf32Little => ByteOrder::LittleEndian,
        ElfLayout::Elf32Big => ByteOrder::BigEndian,
        ElfLayout::Elf64Little => ByteOrder::LittleEndian,
        ElfLayout::Elf64Big => ByteOrder::BigEndian,
    }
}

// The identification, and zeros after it.
fn identified(layout: ElfLayout) -> [u8; LONGEST] {
    match layout {
        ElfLayout::Elf32Little => begun(1, 1),
        ElfLayout::Elf32Big => begun(1, 2),
        ElfLayout::Elf64Little => begun(2, 1),
        ElfLayout::Elf64Big => begun(2, 2),
    }
}

fn begun(class: u8, order: u8) -> [u8; LONGEST] {
    let mut bytes = [0; LONGEST];
    bytes[0] = 0x7F;
    bytes[1] = b'E';
    bytes[2] = b'L';
    bytes[3] = b'F';
    bytes[4] = class;
    bytes[5] = order;
    bytes[6] = 1;
    bytes
}

/// The file, of this length, whose bodies end at `shoff`.
pub(super) fn file(
    alloc: Global,
    image: &Image,
    layout: ElfLayout,
    shoff: usize,
    length: usize,
) -> Result<Vec<u8>, AllocError> {
    let parts = image.parts.as_slice();
    let mut file = Vec::with_capacity(alloc, length)?;
    push_header(&mut file, image, layout, shoff)?;
    push_bodies(&mut file, parts, layout)?;
    push_section_headers(&mut file, parts, layout)?;
    Ok(file)
}

fn push_header(
    file: &mut Vec<u8>,
    image: &Image,
    layout: ElfLayout,
    shoff: usize,
) -> Result<(), AllocError> {
    const ET_REL: u64 = 1;
    const EV_CURRENT: u64 = 1;
    let class = class(layout);
    let fields = class.header;
    push_structure(
        file,
        order(layout),
        identified(layout),
        class.header_length,
        &[
            (fields.elf_type, ET_REL),
            (fields.version, EV_CURRENT),
            (fields.shoff, shoff as u64),
            (fields.ehsize, class.header_length as u64),
            (fields.shentsize, class.section_length as u64),
            (fields.shnum, image.parts.len() as u64),
            (fields.shstrndx, u64::from(image.names_at)),
        ],
    )
}

fn push_bodies(file: &mut Vec<u8>, parts: &[Part], layout: ElfLayout) -> Result<(), AllocError> {
    for part in parts {
        match part {
            Part::Bytes { body, .. } => file.extend_from_slice(body)?,
            Part::Table { rows, .. } => push_rows(file, rows, layout)?,
        }
    }
    Ok(())
}

fn push_rows(file: &mut Vec<u8>, rows: &[Row], layout: ElfLayout) -> Result<(), AllocError> {
    for row in rows {
        push_row(file, *row, layout)?;
    }
    Ok(())
}

fn push_row(file: &mut Vec<u8>, row: Row, layout: ElfLayout) -> Result<(), AllocError> {
    let class = class(layout);
    let fields = class.symbol;
    push_structure(
        file,
        order(layout),
        [0; LONGEST],
        class.symbol_length,
        &[
            (fields.name, u64::from(row.name)),
            (fields.value, u64::from(row.address)),
            (fields.size, u64::from(row.size)),
            (fields.info, u64::from(row.info)),
            (fields.other, u64::from(row.other)),
            (fields.section, u64::from(row.section)),
        ],
    )
}

fn push_section_headers(
    file: &mut Vec<u8>,
    parts: &[Part],
    layout: ElfLayout,
) -> Result<(), AllocError> {
    let class = class(layout);
    let mut place = class.header_length;
    for part in parts {
        push_section_header(file, part, layout, place)?;
        place += body_length(part, class);
    }
    Ok(())
}

// The header of a part whose body begins at `place`.
fn push_section_header(
    file: &mut Vec<u8>,
    part: &Part,
    layout: ElfLayout,
    place: usize,
) -> Result<(), AllocError> {
    let class = class(layout);
    let fields = class.section;
    push_structure(
        file,
        order(layout),
        [0; LONGEST],
        class.section_length,
        &[
            (fields.name, u64::from(name(part))),
            (fields.kind, u64::from(kind(part))),
            (fields.flags, 0),
            (fields.addr, 0),
            (fields.offset, place as u64),
            (fields.size, body_length(part, class) as u64),
            (fields.link, u64::from(link(part))),
            (fields.addralign, 1),
            (fields.entry_size, entry_length(part, class) as u64),
        ],
    )
}

// Appends a structure: the first `length` of the blank bytes, into which the numbers are put.
fn push_structure(
    file: &mut Vec<u8>,
    order: ByteOrder,
    mut blank: [u8; LONGEST],
    length: usize,
    numbers: &[(Field, u64)],
) -> Result<(), AllocError> {
    let structure = &mut blank[..length];
    fill(structure, order, numbers);
    file.extend_from_slice(structure)
}

// Puts each number into its field.
fn fill(structure: &mut [u8], order: ByteOrder, numbers: &[(Field, u64)]) {
    for number in numbers {
        put(structure, order, number.0, number.1);
    }
}

// Puts a number into its field: as many of its bytes as the field is wide.
fn put(structure: &mut [u8], order: ByteOrder, field: Field, number: u64) {
    let Field(place, width) = field;
    let bytes = &mut structure[place..place + width];
    match order {
        ByteOrder::LittleEndian => bytes.copy_from_slice(&number.to_le_bytes()[..width]),
        ByteOrder::BigEndian => bytes.copy_from_slice(&number.to_be_bytes()[8 - width..]),
    }
}
