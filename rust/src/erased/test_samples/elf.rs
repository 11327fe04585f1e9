// From crates/test_samples/src/elf.rt, by tools/erase.

//! An ELF file of five sections in four layouts: in two classes, each in two byte orders.
//!
//! Its parts follow one another without padding. Their offsets in 32 and in 64 bits:
//!
//! - 0 and 0: the file header: relocatable, 5 section headers, and section 4 has the section names
//! - 52 and 64: section 1, `.text`, 32 bytes of code
//! - 84 and 96: section 2, `.symtab`, five rows: `_ZN3foo3barE` at 0x1000 and `bad` at 0x1010, functions of 16 bytes of
//!   section 1 and of section 2; and at 0x1010 three of section 1: the function `bad` of no size, a function of 16
//!   bytes without a name, and the object `bad` of 16 bytes. So the first alone is a function of `.text` with a size
//!   and a name.
//! - 164 and 216: section 3, `.strtab`
//! - 182 and 234: section 4, `.shstrtab`
//! - 215 and 267: the section headers of 40 and 64 bytes, the first of no section

use crate::erased::binfarce_bytes::ByteOrder;

/// What is listed of the file.
pub const LISTING: &str = "0000000000001000         16 foo\ntext 32\n";

/// The class and the byte order that the file is written in.
#[derive(Clone, Copy, Debug)]
pub enum Layout {
    Elf32Little,
    Elf32Big,
    Elf64Little,
    Elf64Big,
}

/// All layouts.
pub const LAYOUTS: [Layout; 4] = [
    Layout::Elf32Little,
    Layout::Elf32Big,
    Layout::Elf64Little,
    Layout::Elf64Big,
];

impl Layout {
    /// The file.
    pub fn bytes(self) -> &'static [u8] {
        match self {
            Layout::Elf32Little => &ELF32_LITTLE,
            Layout::Elf32Big => &ELF32_BIG,
            Layout::Elf64Little => &ELF64_LITTLE,
            Layout::Elf64Big => &ELF64_BIG,
        }
    }

    /// Whether it is of the class of 64 bits.
    pub fn is_64(self) -> bool {
        match self {
            Layout::Elf32Little | Layout::Elf32Big => false,
            Layout::Elf64Little | Layout::Elf64Big => true,
        }
    }

    /// The byte order.
    pub fn order(self) -> ByteOrder {
        match self {
            Layout::Elf32Little | Layout::Elf64Little => ByteOrder::LittleEndian,
            Layout::Elf32Big | Layout::Elf64Big => ByteOrder::BigEndian,
        }
    }
}

/// The file in 32-bit form, little endian.
pub static ELF32_LITTLE: [u8; 415] = *b"\
\x7FELF\
\x01\x01\x01\0\0\0\0\0\0\0\0\0\x01\0\0\0\x01\0\0\0\0\0\0\0\0\0\0\0\xD7\0\0\0\0\0\0\0\x34\0\0\0\0\0\x28\0\x05\0\x04\0\
\xC3\xC3\xC3\xC3\xC3\xC3\xC3\xC3\xC3\xC3\xC3\xC3\xC3\xC3\xC3\xC3\xC3\xC3\xC3\xC3\xC3\xC3\xC3\xC3\xC3\xC3\xC3\xC3\xC3\
\xC3\xC3\xC3\
\x01\0\0\0\0\x10\0\0\x10\0\0\0\x12\0\x01\0\x0E\0\0\0\x10\x10\0\0\x10\0\0\0\x12\0\x02\0\
\x0E\0\0\0\x10\x10\0\0\0\0\0\0\x12\0\x01\0\0\0\0\0\x10\x10\0\0\x10\0\0\0\x12\0\x01\0\
\x0E\0\0\0\x10\x10\0\0\x10\0\0\0\x11\0\x01\0\0_ZN3foo3barE\0bad\0\0.text\0.symtab\0.strtab\0.shstrtab\0\
\0\0\0\0\0\0\0\0\0\0\0\0\0\0\0\0\x34\0\0\0\0\0\0\0\0\0\0\0\0\0\0\0\x01\0\0\0\0\0\0\0\
\x01\0\0\0\x01\0\0\0\0\0\0\0\0\0\0\0\x34\0\0\0\x20\0\0\0\0\0\0\0\0\0\0\0\x01\0\0\0\0\0\0\0\
\x07\0\0\0\x02\0\0\0\0\0\0\0\0\0\0\0\x54\0\0\0\x50\0\0\0\x03\0\0\0\0\0\0\0\x01\0\0\0\x10\0\0\0\
\x0F\0\0\0\x03\0\0\0\0\0\0\0\0\0\0\0\xA4\0\0\0\x12\0\0\0\0\0\0\0\0\0\0\0\x01\0\0\0\0\0\0\0\
\x17\0\0\0\x03\0\0\0\0\0\0\0\0\0\0\0\xB6\0\0\0\x21\0\0\0\0\0\0\0\0\0\0\0\x01\0\0\0\0\0\0\0";

/// The file in 32-bit form, big endian.
pub static ELF32_BIG: [u8; 415] = *b"\
\x7FELF\
\x01\x02\x01\0\0\0\0\0\0\0\0\0\0\x01\0\0\0\0\0\x01\0\0\0\0\0\0\0\0\0\0\0\xD7\0\0\0\0\0\x34\0\0\0\0\0\x28\0\x05\0\x04\
\xC3\xC3\xC3\xC3\xC3\xC3\xC3\xC3\xC3\xC3\xC3\xC3\xC3\xC3\xC3\xC3\xC3\xC3\xC3\xC3\xC3\xC3\xC3\xC3\xC3\xC3\xC3\xC3\xC3\
\xC3\xC3\xC3\
\0\0\0\x01\0\0\x10\0\0\0\0\x10\x12\0\0\x01\0\0\0\x0E\0\0\x10\x10\0\0\0\x10\x12\0\0\x02\
\0\0\0\x0E\0\0\x10\x10\0\0\0\0\x12\0\0\x01\0\0\0\0\0\0\x10\x10\0\0\0\x10\x12\0\0\x01\
\0\0\0\x0E\0\0\x10\x10\0\0\0\x10\x11\0\0\x01\0_ZN3foo3barE\0bad\0\0.text\0.symtab\0.strtab\0.shstrtab\0\
\0\0\0\0\0\0\0\0\0\0\0\0\0\0\0\0\0\0\0\x34\0\0\0\0\0\0\0\0\0\0\0\0\0\0\0\x01\0\0\0\0\
\0\0\0\x01\0\0\0\x01\0\0\0\0\0\0\0\0\0\0\0\x34\0\0\0\x20\0\0\0\0\0\0\0\0\0\0\0\x01\0\0\0\0\
\0\0\0\x07\0\0\0\x02\0\0\0\0\0\0\0\0\0\0\0\x54\0\0\0\x50\0\0\0\x03\0\0\0\0\0\0\0\x01\0\0\0\x10\
\0\0\0\x0F\0\0\0\x03\0\0\0\0\0\0\0\0\0\0\0\xA4\0\0\0\x12\0\0\0\0\0\0\0\0\0\0\0\x01\0\0\0\0\
\0\0\0\x17\0\0\0\x03\0\0\0\0\0\0\0\0\0\0\0\xB6\0\0\0\x21\0\0\0\0\0\0\0\0\0\0\0\x01\0\0\0\0";

/// The file in 64-bit form, little endian.
pub static ELF64_LITTLE: [u8; 587] = *b"\
\x7FELF\
\x02\x01\x01\0\0\0\0\0\0\0\0\0\x01\0\0\0\x01\0\0\0\0\0\0\0\0\0\0\0\0\0\0\0\0\0\0\0\x0B\x01\0\0\0\0\0\0\0\0\0\0\x40\0\0\
\0\0\0\x40\0\x05\0\x04\0\
\xC3\xC3\xC3\xC3\xC3\xC3\xC3\xC3\xC3\xC3\xC3\xC3\xC3\xC3\xC3\xC3\xC3\xC3\xC3\xC3\xC3\xC3\xC3\xC3\xC3\xC3\xC3\xC3\xC3\
\xC3\xC3\xC3\
\x01\0\0\0\x12\0\x01\0\0\x10\0\0\0\0\0\0\x10\0\0\0\0\0\0\0\
\x0E\0\0\0\x12\0\x02\0\x10\x10\0\0\0\0\0\0\x10\0\0\0\0\0\0\0\x0E\0\0\0\x12\0\x01\0\x10\x10\0\0\0\0\0\0\0\0\0\0\0\0\0\0\
\0\0\0\0\x12\0\x01\0\x10\x10\0\0\0\0\0\0\x10\0\0\0\0\0\0\0\
\x0E\0\0\0\x11\0\x01\0\x10\x10\0\0\0\0\0\0\x10\0\0\0\0\0\0\0\0_ZN3foo3barE\0bad\0\
\0.text\0.symtab\0.strtab\0.shstrtab\0\
\0\0\0\0\0\0\0\0\0\0\0\0\0\0\0\0\0\0\0\0\0\0\0\0\x40\0\0\0\0\0\0\0\0\0\0\0\0\0\0\0\0\0\0\0\0\0\0\0\x01\0\0\0\0\0\0\0\0\
\0\0\0\0\0\0\0\
\x01\0\0\0\x01\0\0\0\0\0\0\0\0\0\0\0\0\0\0\0\0\0\0\0\x40\0\0\0\0\0\0\0\x20\0\0\0\0\0\0\0\0\0\0\0\0\0\0\0\x01\0\0\0\0\0\
\0\0\0\0\0\0\0\0\0\0\
\x07\0\0\0\x02\0\0\0\0\0\0\0\0\0\0\0\0\0\0\0\0\0\0\0\x60\0\0\0\0\0\0\0\x78\0\0\0\0\0\0\0\x03\0\0\0\0\0\0\0\x01\0\0\0\0\
\0\0\0\x18\0\0\0\0\0\0\0\
\x0F\0\0\0\x03\0\0\0\0\0\0\0\0\0\0\0\0\0\0\0\0\0\0\0\xD8\0\0\0\0\0\0\0\x12\0\0\0\0\0\0\0\0\0\0\0\0\0\0\0\x01\0\0\0\0\0\
\0\0\0\0\0\0\0\0\0\0\
\x17\0\0\0\x03\0\0\0\0\0\0\0\0\0\0\0\0\0\0\0\0\0\0\0\xEA\0\0\0\0\0\0\0\x21\0\0\0\0\0\0\0\0\0\0\0\0\0\0\0\x01\0\0\0\0\0\
\0\0\0\0\0\0\0\0\0\0";

/// The file in 64-bit form, big endian.
pub static ELF64_BIG: [u8; 587] = *b"\
\x7FELF\
\x02\x02\x01\0\0\0\0\0\0\0\0\0\0\x01\0\0\0\0\0\x01\0\0\0\0\0\0\0\0\0\0\0\0\0\0\0\0\0\0\0\0\0\0\x01\x0B\0\0\0\0\0\x40\0\
\0\0\0\0\x40\0\x05\0\x04\
\xC3\xC3\xC3\xC3\xC3\xC3\xC3\xC3\xC3\xC3\xC3\xC3\xC3\xC3\xC3\xC3\xC3\xC3\xC3\xC3\xC3\xC3\xC3\xC3\xC3\xC3\xC3\xC3\xC3\
\xC3\xC3\xC3\
\0\0\0\x01\x12\0\0\x01\0\0\0\0\0\0\x10\0\0\0\0\0\0\0\0\x10\
\0\0\0\x0E\x12\0\0\x02\0\0\0\0\0\0\x10\x10\0\0\0\0\0\0\0\x10\0\0\0\x0E\x12\0\0\x01\0\0\0\0\0\0\x10\x10\0\0\0\0\0\0\0\0\
\0\0\0\0\x12\0\0\x01\0\0\0\0\0\0\x10\x10\0\0\0\0\0\0\0\x10\
\0\0\0\x0E\x11\0\0\x01\0\0\0\0\0\0\x10\x10\0\0\0\0\0\0\0\x10\0_ZN3foo3barE\0bad\0\
\0.text\0.symtab\0.strtab\0.shstrtab\0\
\0\0\0\0\0\0\0\0\0\0\0\0\0\0\0\0\0\0\0\0\0\0\0\0\0\0\0\0\0\0\0\x40\0\0\0\0\0\0\0\0\0\0\0\0\0\0\0\0\0\0\0\0\0\0\0\x01\0\
\0\0\0\0\0\0\0\
\0\0\0\x01\0\0\0\x01\0\0\0\0\0\0\0\0\0\0\0\0\0\0\0\0\0\0\0\0\0\0\0\x40\0\0\0\0\0\0\0\x20\0\0\0\0\0\0\0\0\0\0\0\0\0\0\0\
\x01\0\0\0\0\0\0\0\0\
\0\0\0\x07\0\0\0\x02\0\0\0\0\0\0\0\0\0\0\0\0\0\0\0\0\0\0\0\0\0\0\0\x60\0\0\0\0\0\0\0\x78\0\0\0\x03\0\0\0\0\0\0\0\0\0\0\
\0\x01\0\0\0\0\0\0\0\x18\
\0\0\0\x0F\0\0\0\x03\0\0\0\0\0\0\0\0\0\0\0\0\0\0\0\0\0\0\0\0\0\0\0\xD8\0\0\0\0\0\0\0\x12\0\0\0\0\0\0\0\0\0\0\0\0\0\0\0\
\x01\0\0\0\0\0\0\0\0\
\0\0\0\x17\0\0\0\x03\0\0\0\0\0\0\0\0\0\0\0\0\0\0\0\0\0\0\0\0\0\0\0\xEA\0\0\0\0\0\0\0\x21\0\0\0\0\0\0\0\0\0\0\0\0\0\0\0\
\x01\0\0\0\0\0\0\0\0";
