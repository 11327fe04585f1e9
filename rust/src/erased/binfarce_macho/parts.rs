// From crates/binfarce_macho/src/parts.rt, by tools/erase.

//! The end of a file's load commands, whether a prefix of the file holds them, and where the file is loaded.

use crate::erased::binfarce_macho::commands::{
    COMMAND_HEAD, Command, LC_SEGMENT_64, LC_SYMTAB, command_at, commands,
};
use crate::erased::binfarce_macho::header::{HEADER_LENGTH, MachoHeader};
use crate::erased::binfarce_macho::sections::{SECTION_LENGTH, name_in};
use crate::erased::binfarce_bytes::parser::{Stream, UnexpectedEof, number_at, to_index};
use crate::erased::binfarce_bytes::{ByteOrder, ParseError};

/// Where the load commands end, as the header states (`sizeofcmds`).
pub fn commands_end(header: MachoHeader) -> u64 {
    HEADER_LENGTH as u64 + u64::from(header.sizeofcmds)
}

/// Whether the load commands that this header states, with the fields that are read, lie in these bytes. A file that
/// begins with these bytes then has the same sections and the same symbol table, whatever follows.
pub fn holds_commands(file: &[u8], header: MachoHeader) -> bool {
    let mut offset = HEADER_LENGTH;
    for _k in 0..header.ncmds {
        match command_at(file, offset) {
            Err(_) => return false,
            Ok(command) => {
                if command.size < COMMAND_HEAD {
                    return true;
                }
                if !holds_body(file, command) {
                    return false;
                }
                offset = to_index(offset as u64 + command.size as u64);
            }
        }
    }
    true
}

fn holds_body(bytes: &[u8], command: Command) -> bool {
    let body = command.offset + 8;
    match command.kind {
        LC_SEGMENT_64 => holds_sections(bytes, body),
        LC_SYMTAB => body + 16 <= bytes.len(),
        _ => true,
    }
}

// Whether all section structures of a segment command lie in the bytes.
fn holds_sections(bytes: &[u8], body: usize) -> bool {
    match number_at::<u32>(bytes, body + 56, ByteOrder::LittleEndian) {
        Err(_) => false,
        Ok(count) => {
            (body + 64) as u64 + u64::from(count) * SECTION_LENGTH as u64 <= bytes.len() as u64
        }
    }
}

/// Where a file with this header is loaded unless the loader slides it: the address of its first segment `__TEXT`.
/// `None` without one, as in an object file. `MalformedInput` for a bad command before it.
pub fn load_address(file: &[u8], header: MachoHeader) -> Result<Option<u64>, ParseError> {
    for item in commands(file, header) {
        let command = item?;
        match text_address(file, command) {
            None => {}
            Some(address) => return Ok(Some(address)),
        }
    }
    Ok(None)
}

// The address of the segment of a command, where it is named `__TEXT` and its name and address lie in the file.
fn text_address(bytes: &[u8], command: Command) -> Option<u64> {
    if command.kind != LC_SEGMENT_64 {
        return None;
    }
    match text_place(bytes, command) {
        Err(_) => None,
        Ok(address) => address,
    }
}

// The same, of a command of a segment; refused if its name and address don't lie in the file.
fn text_place(bytes: &[u8], command: Command) -> Result<Option<u64>, UnexpectedEof> {
    let body = command.offset.checked_add(8).ok_or(UnexpectedEof {})?;
    let mut s = Stream::new_at(bytes, body, ByteOrder::LittleEndian)?;
    let name = s.read_bytes(16)?;
    let address = s.read()?;
    if is_text_name(name_in(name)) {
        Ok(Some(address))
    } else {
        Ok(None)
    }
}

fn is_text_name(name: Option<&str>) -> bool {
    match name {
        None => false,
        Some(name) => name == "__TEXT",
    }
}
