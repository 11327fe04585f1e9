// From crates/binfarce_macho/src/accessors.rt, by tools/erase.

//! The values of a section's structure.

use crate::erased::binfarce_macho::sections::Section;

// Constants of sections' flags (`<mach-o/loader.h>`).
const SECTION_TYPE: u32 = 0xff;

const S_ZEROFILL: u32 = 1;

const S_GB_ZEROFILL: u32 = 12;

const S_THREAD_LOCAL_ZEROFILL: u32 = 18;

impl<'a> Section<'a> {
    /// The section's name (`sectname`), as `__text`; a slice of the file.
    pub fn name(&self) -> &'a str {
        self.section_name
    }

    /// The name of the section's segment (`segname`), as `__TEXT`; a slice of the file.
    pub fn segment_name(&self) -> &'a str {
        self.segment_name
    }

    /// The address of the section's first byte in memory (`addr`).
    pub fn address(&self) -> u64 {
        self.address
    }

    /// Where the section's bytes begin in the file (`offset`); 0 if it has none there, as `__bss`.
    pub fn offset(&self) -> u32 {
        self.offset
    }

    /// The section's size in bytes (`size`).
    pub fn size(&self) -> u64 {
        self.size
    }

    /// The section's flags (`flags`): its type in the low byte, and attributes, as 0x80000000 where it has nothing but
    /// instructions (`S_ATTR_PURE_INSTRUCTIONS`). 0 if the file ends before them.
    pub fn flags(&self) -> u32 {
        self.flags
    }

    /// The section's type (`SECTION_TYPE`), the low byte of its flags: 0 for plain content (`S_REGULAR`), 1 if it is
    /// filled with zeros (`S_ZEROFILL`), 2 for strings (`S_CSTRING_LITERALS`).
    pub fn section_type(&self) -> u32 {
        self.flags & SECTION_TYPE
    }

    /// Whether the section is filled with zeros in memory, by its type (`S_ZEROFILL`, `S_GB_ZEROFILL`,
    /// `S_THREAD_LOCAL_ZEROFILL`).
    pub fn is_zero_filled(&self) -> bool {
        let kind = self.section_type();
        kind == S_ZEROFILL || kind == S_GB_ZEROFILL || kind == S_THREAD_LOCAL_ZEROFILL
    }

    /// How many bytes the section has in the file: its size, but 0 if it is filled with zeros in memory, or its
    /// offset is 0.
    pub fn file_size(&self) -> u64 {
        if self.is_zero_filled() || self.offset == 0 {
            0
        } else {
            self.size
        }
    }
}
