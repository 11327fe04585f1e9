// From crates/binfarce_macho/src/commands.rt, by tools/erase.

//! The load commands of a file, one after the other (Apple's `<mach-o/loader.h>`).

use crate::erased::binfarce_macho::header::{HEADER_LENGTH, MachoHeader};
use crate::erased::binfarce_bytes::parser::{Stream, UnexpectedEof, to_index};
use crate::erased::binfarce_bytes::{ByteOrder, ParseError};

pub(crate) const LC_SYMTAB: u32 = 0x2;

pub(crate) const LC_SEGMENT_64: u32 = 0x19;

// How many bytes a load command has before its body.
pub(crate) const COMMAND_HEAD: u32 = 8;

/// Why a walk ends early. `ParseError` holds a `'static` text, and with it a callback couldn't borrow.
#[derive(Clone, Copy)]
pub(crate) enum Damage {
    Malformed,
    Truncated,
}

impl From<Damage> for ParseError {
    fn from(damage: Damage) -> Self {
        match damage {
            Damage::Malformed => ParseError::MalformedInput,
            Damage::Truncated => ParseError::UnexpectedEof,
        }
    }
}

/// A load command: where it begins, its kind and its size.
#[derive(Clone, Copy)]
pub(crate) struct Command {
    pub(crate) offset: usize,
    pub(crate) kind: u32,
    pub(crate) size: u32,
}

/// An iterator over load commands, at most as many as are left. A command whose size is below 8 ends it with an error.
#[derive(Clone)]
pub(crate) struct MachoCommandsIterator<'a> {
    pub(crate) bytes: &'a [u8],
    offset: usize,
    pub(crate) left: u32,
}

impl Iterator for MachoCommandsIterator<'_> {
    type Item = Result<Command, Damage>;

    fn next(&mut self) -> Option<Result<Command, Damage>> {
        if self.left == 0 {
            return None;
        }
        match command_at(self.bytes, self.offset) {
            Err(_) => None,
            Ok(command) => {
                if command.size < COMMAND_HEAD {
                    self.left = 0;
                    return Some(Err(Damage::Malformed));
                }
                self.left -= 1;
                self.offset = to_index(self.offset as u64 + command.size as u64);
                Some(Ok(command))
            }
        }
    }
}

// The load commands of a file with this header.
pub(crate) fn commands(file: &[u8], header: MachoHeader) -> MachoCommandsIterator<'_> {
    MachoCommandsIterator {
        bytes: file,
        offset: HEADER_LENGTH,
        left: header.ncmds,
    }
}

// The load command that begins at `offset`; refused if its head is truncated.
pub(crate) fn command_at(bytes: &[u8], offset: usize) -> Result<Command, UnexpectedEof> {
    let mut s = Stream::new_at(bytes, offset, ByteOrder::LittleEndian)?;
    let kind = s.read()?;
    let size = s.read()?;
    Ok(Command { offset, kind, size })
}
