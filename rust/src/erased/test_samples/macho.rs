// From crates/test_samples/src/macho.rt, by tools/erase.

//! A Mach-O file of one segment with one section, and four symbols.
//!
//! - 0: `mach_header_64`: 2 load commands. Readers of the format don't look at the magic number, which is zero here.
//! - 32: `LC_SEGMENT_64`, 152 bytes: 1 section
//! - 104: its section: `__text` of `__TEXT`, address 0x1000, size 0x100, which holds instructions
//! - 184: `LC_SYMTAB`, 24 bytes: 4 rows at 208, 9 bytes of strings at 272
//! - 208: rows of type 0x0F and section 1: `a` and `b` at 0x1000, `c` at 0x1040, `d` at 0x1100, where the section ends

use crate::erased::test_samples::Patch;

/// Offsets of fields of the header, the segment, its section, and the symbol table's command.
pub const NCMDS: usize = 16;

pub const SIZEOFCMDS: usize = 20;

pub const NSECTS: usize = 96;

pub const SIZE: usize = 144;

pub const OFFSET: usize = 152;

pub const CMDSIZE: usize = 188;

pub const NSYMS: usize = 196;

pub const STRSIZE: usize = 204;

/// The offset of the rows, and of the fourth.
pub const ROWS: usize = 208;

pub const FOURTH: usize = 256;

/// The offset of the value in a row.
pub const N_VALUE: usize = 8;

/// The magic number.
pub const MAGIC: Patch<'static> = (0, &[0xCF, 0xFA, 0xED, 0xFE]);

/// What is listed of the file.
pub const LISTING: &str =
    "0000000000001000         64 a\n0000000000001000         64 b\n0000000000001040        192 c\ntext 256\n";

/// The file: little endian, 64 bits.
pub static MACHO: [u8; 281] = *b"\
\0\0\0\0\0\0\0\0\0\0\0\0\0\0\0\0\x02\0\0\0\0\0\0\0\0\0\0\0\0\0\0\0\
\x19\0\0\0\x98\0\0\0\0\0\0\0\0\0\0\0\0\0\0\0\0\0\0\0\0\0\0\0\0\0\0\0\0\0\0\0\0\0\0\0\0\0\0\0\0\0\0\0\0\0\0\0\0\0\0\0\0\
\0\0\0\0\0\0\0\x01\0\0\0\0\0\0\0__text\0\0\0\0\0\0\0\0\0\0__TEXT\0\0\0\0\0\0\0\0\0\0\
\0\x10\0\0\0\0\0\0\0\x01\0\0\0\0\0\0\0\0\0\0\0\0\0\0\0\0\0\0\0\0\0\0\0\x04\0\x80\0\0\0\0\0\0\0\0\0\0\0\0\
\x02\0\0\0\x18\0\0\0\xD0\0\0\0\x04\0\0\0\x10\x01\0\0\x09\0\0\0\x01\0\0\0\x0F\x01\0\0\0\x10\0\0\0\0\0\0\
\x03\0\0\0\x0F\x01\0\0\0\x10\0\0\0\0\0\0\x05\0\0\0\x0F\x01\0\0\x40\x10\0\0\0\0\0\0\
\x07\0\0\0\x0F\x01\0\0\0\x11\0\0\0\0\0\0\0a\0b\0c\0d\0";
