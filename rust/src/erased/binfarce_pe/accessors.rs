// From crates/binfarce_pe/src/accessors.rt, by tools/erase.

//! The values of a section header.

use crate::erased::binfarce_pe::sections::Section;

impl<'a> Section<'a> {
    /// The name (`Name`), a slice of the file: the 8 bytes up to the first NUL, or all. It may be empty.
    ///
    /// A name of the form `/4` is an offset in the string table, which has the whole name; it is returned unresolved.
    pub fn name(&self) -> &'a str {
        self.name
    }

    /// The address of the section's first byte in memory (`VirtualAddress`), counted from the image base; in an object
    /// file mostly 0.
    pub fn address(&self) -> u32 {
        self.virtual_address
    }

    /// The section's size in memory in bytes (`VirtualSize`); in an object file 0.
    pub fn virtual_size(&self) -> u32 {
        self.virtual_size
    }

    /// Where the section's bytes begin in the file (`PointerToRawData`); 0 if it has none there.
    pub fn offset(&self) -> u32 {
        self.pointer_to_raw_data
    }

    /// How many bytes the section has in the file (`SizeOfRawData`).
    pub fn size(&self) -> u32 {
        self.size_of_raw_data
    }

    /// The section's flags (`Characteristics`): 0x20 where it has code (`IMAGE_SCN_CNT_CODE`), 0x80000000 where it is
    /// writable in memory (`IMAGE_SCN_MEM_WRITE`), and others. 0 if the file ends before them.
    pub fn characteristics(&self) -> u32 {
        self.characteristics
    }

    /// How many bytes of the file are the section's: `SizeOfRawData`, but 0 if `PointerToRawData` is 0.
    pub fn file_size(&self) -> u32 {
        if self.pointer_to_raw_data == 0 {
            0
        } else {
            self.size_of_raw_data
        }
    }

    /// How many bytes the section has in memory: `VirtualSize`, or `SizeOfRawData` if that is 0, as in an object
    /// file.
    pub fn memory_size(&self) -> u32 {
        if self.virtual_size == 0 {
            self.size_of_raw_data
        } else {
            self.virtual_size
        }
    }
}
