// From crates/binfarce_identity/src/identity.rt, by tools/erase.

//! The identity of a file, and its text.

use crate::shim::{String, Vec};
use crate::erased::binfarce_bytes::ByteOrder;
use crate::erased::binfarce_bytes::parser::number_at;
use crate::shim::alloc::AllocError;

/// What an identity is.
#[derive(Debug, Clone, Copy, PartialEq)]
pub enum Kind {
    /// The descriptor of the note of the type `NT_GNU_BUILD_ID` in an ELF file.
    BuildId,
    /// The 16 bytes of the load command `LC_UUID` of a Mach-O file.
    Uuid,
    /// The 16 bytes of the GUID and the 4 bytes of the age in the CodeView record of a PE file, as they are there.
    CodeView,
}

/// What says from which build a file is: files of one build have the same, its debug file too.
#[derive(Debug, PartialEq)]
pub struct Identity {
    /// What it is.
    pub kind: Kind,
    /// Its bytes, as the file has them.
    pub bytes: Vec<u8>,
}

impl Identity {
    /// Appends its text: a build ID's bytes in lower-case hexadecimal digits, as `readelf -n` prints them; a UUID in
    /// upper case with hyphens, as `dwarfdump --uuid` prints it; a GUID in upper case and then the age, without
    /// hyphens, as symbol servers name folders.
    ///
    /// # Errors
    ///
    /// `AllocError` if an allocation fails.
    pub fn push_text(&self, text: &mut String) -> Result<(), AllocError> {
        match self.kind {
            Kind::BuildId => push_hex(text, &self.bytes, false),
            Kind::Uuid => push_uuid(text, &self.bytes),
            Kind::CodeView => {
                push_guid(text, &self.bytes)?;
                push_age(text, &self.bytes)
            }
        }
    }
}

fn push_uuid(text: &mut String, bytes: &[u8]) -> Result<(), AllocError> {
    push_at(text, bytes, 0, 4)?;
    text.push_str("-")?;
    push_at(text, bytes, 4, 2)?;
    text.push_str("-")?;
    push_at(text, bytes, 6, 2)?;
    text.push_str("-")?;
    push_at(text, bytes, 8, 2)?;
    text.push_str("-")?;
    push_at(text, bytes, 10, 6)
}

fn push_guid(text: &mut String, bytes: &[u8]) -> Result<(), AllocError> {
    push_at(text, bytes, 3, 1)?;
    push_at(text, bytes, 2, 1)?;
    push_at(text, bytes, 1, 1)?;
    push_at(text, bytes, 0, 1)?;
    push_at(text, bytes, 5, 1)?;
    push_at(text, bytes, 4, 1)?;
    push_at(text, bytes, 7, 1)?;
    push_at(text, bytes, 6, 1)?;
    push_at(text, bytes, 8, 8)
}

// The age of a CodeView record, which follows its GUID.
fn push_age(text: &mut String, bytes: &[u8]) -> Result<(), AllocError> {
    let Ok(age) = number_at::<u32>(bytes, 16, ByteOrder::LittleEndian) else {
        return Ok(());
    };
    write!(text, "{age:x}")
}

// So many bytes from an offset on, in upper case.
fn push_at(text: &mut String, bytes: &[u8], offset: usize, size: usize) -> Result<(), AllocError> {
    push_hex(text, part_of(bytes, offset, size), true)
}

// So many bytes from an offset on, or as many as there are.
fn part_of(bytes: &[u8], offset: usize, size: usize) -> &[u8] {
    let rest = &bytes[offset.min(bytes.len())..];
    &rest[..size.min(rest.len())]
}

fn push_hex(text: &mut String, bytes: &[u8], is_upper: bool) -> Result<(), AllocError> {
    for byte in bytes {
        push_byte(text, *byte, is_upper)?;
    }
    Ok(())
}

fn push_byte(text: &mut String, byte: u8, is_upper: bool) -> Result<(), AllocError> {
    text.push(digit(byte / 16, is_upper) as char)?;
    text.push(digit(byte % 16, is_upper) as char)
}

// The hexadecimal digit of a value.
fn digit(value: u8, is_upper: bool) -> u8 {
    if value < 10 {
        b'0' + value
    } else if is_upper {
        b'A' + (value - 10)
    } else {
        b'a' + (value - 10)
    }
}
