// From crates/binfarce_pe/src/header.rt, by tools/erase.

//! The file header (Microsoft PE Format, "COFF File Header").

use crate::shim::to_usize;
use crate::erased::binfarce_pe::parts::{OPTIONAL_HEADER_LENGTH, SIGNATURE_POINTER};
use crate::erased::binfarce_bytes::ByteOrder;
use crate::erased::binfarce_bytes::parser::{Stream, UnexpectedEof, number_at};

const IMAGE_NT_OPTIONAL_HDR32_MAGIC: u16 = 0x10b;

const IMAGE_NT_OPTIONAL_HDR64_MAGIC: u16 = 0x20b;

/// The COFF file header ("COFF File Header").
#[derive(Debug, Clone, Copy)]
pub struct PeHeader {
    machine: u16,
    pub(crate) number_of_sections: u16,
    time_date_stamp: u32,
    pub(crate) pointer_to_symbol_table: u32,
    pub(crate) number_of_symbols: u32,
    pub(crate) size_of_optional_header: u16,
    characteristics: u16,
}

/// The signature's offset, and the file header.
pub fn parse_header(file: &[u8]) -> Result<(u32, PeHeader), UnexpectedEof> {
    let pe_pointer: u32 = number_at(file, SIGNATURE_POINTER, ByteOrder::LittleEndian)?;
    let header = header_after(file, to_usize(pe_pointer))?;
    Ok((pe_pointer, header))
}

// The file header after the signature at this offset.
pub(crate) fn header_after(file: &[u8], signature: usize) -> Result<PeHeader, UnexpectedEof> {
    let mut s = Stream::new_at(file, signature, ByteOrder::LittleEndian)?;
    s.skip::<u32>()?; // signature
    Ok(PeHeader {
        machine: s.read()?,
        number_of_sections: s.read()?,
        time_date_stamp: s.read()?,
        pointer_to_symbol_table: s.read()?,
        number_of_symbols: s.read()?,
        size_of_optional_header: s.read()?,
        characteristics: s.read()?,
    })
}

/// The image base (`ImageBase`) by an optional header that begins with these bytes. `None` for less than 32 bytes, and
/// where the magic number is neither that of PE32 nor that of PE32+, as in an object file.
pub fn image_base(optional_header: &[u8]) -> Option<u64> {
    if optional_header.len() < OPTIONAL_HEADER_LENGTH {
        return None;
    }
    let magic: u16 = number_at(optional_header, 0, ByteOrder::LittleEndian).unwrap();
    if magic == IMAGE_NT_OPTIONAL_HDR32_MAGIC {
        let base: u32 = number_at(optional_header, 28, ByteOrder::LittleEndian).unwrap();
        Some(u64::from(base))
    } else if magic == IMAGE_NT_OPTIONAL_HDR64_MAGIC {
        Some(number_at(optional_header, 24, ByteOrder::LittleEndian).unwrap())
    } else {
        None
    }
}
