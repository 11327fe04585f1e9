// From crates/binfarce_image/src/image/tables.rt, by tools/erase.

//! The tables of both classes: the lengths of structures, and the offsets and widths of their fields (System V gABI,
//! chapter 4).

/// The offset of a field in its structure, and its width in bytes.
#[derive(Clone, Copy)]
pub(super) struct Field(pub(super) usize, pub(super) usize);

/// ELF Header.
#[derive(Clone, Copy)]
pub(super) struct Header {
    pub(super) elf_type: Field,
    pub(super) machine: Field,
    pub(super) version: Field,
    pub(super) entry: Field,
    pub(super) phoff: Field,
    pub(super) shoff: Field,
    pub(super) flags: Field,
    pub(super) ehsize: Field,
    pub(super) phentsize: Field,
    pub(super) phnum: Field,
    pub(super) shentsize: Field,
    pub(super) shnum: Field,
    pub(super) shstrndx: Field,
}

/// Section Header.
#[derive(Clone, Copy)]
pub(super) struct SectionHeader {
    pub(super) name: Field,
    pub(super) kind: Field,
    pub(super) flags: Field,
    pub(super) addr: Field,
    pub(super) offset: Field,
    pub(super) size: Field,
    pub(super) link: Field,
    pub(super) info: Field,
    pub(super) addralign: Field,
    pub(super) entry_size: Field,
}

/// Symbol Table Entry.
#[derive(Clone, Copy)]
pub(super) struct SymbolRow {
    pub(super) name: Field,
    pub(super) value: Field,
    pub(super) size: Field,
    pub(super) info: Field,
    pub(super) other: Field,
    pub(super) section: Field,
}

/// The lengths of a class's structures, and their fields.
#[derive(Clone, Copy)]
pub(super) struct Class {
    pub(super) header_length: usize,
    pub(super) section_length: usize,
    pub(super) symbol_length: usize,
    pub(super) header: Header,
    pub(super) section: SectionHeader,
    pub(super) symbol: SymbolRow,
}

/// ELFCLASS32.
pub(super) const ELF32: Class = Class {
    header_length: 52,
    section_length: 40,
    symbol_length: 16,
    header: Header {
        elf_type: Field(16, 2),
        machine: Field(18, 2),
        version: Field(20, 4),
        entry: Field(24, 4),
        phoff: Field(28, 4),
        shoff: Field(32, 4),
        flags: Field(36, 4),
        ehsize: Field(40, 2),
        phentsize: Field(42, 2),
        phnum: Field(44, 2),
        shentsize: Field(46, 2),
        shnum: Field(48, 2),
        shstrndx: Field(50, 2),
    },
    section: SectionHeader {
        name: Field(0, 4),
        kind: Field(4, 4),
        flags: Field(8, 4),
        addr: Field(12, 4),
        offset: Field(16, 4),
        size: Field(20, 4),
        link: Field(24, 4),
        info: Field(28, 4),
        addralign: Field(32, 4),
        entry_size: Field(36, 4),
    },
    symbol: SymbolRow {
        name: Field(0, 4),
        value: Field(4, 4),
        size: Field(8, 4),
        info: Field(12, 1),
        other: Field(13, 1),
        section: Field(14, 2),
    },
};

/// ELFCLASS64.
pub(super) const ELF64: Class = Class {
    header_length: 64,
    section_length: 64,
    symbol_length: 24,
    header: Header {
        elf_type: Field(16, 2),
        machine: Field(18, 2),
        version: Field(20, 4),
        entry: Field(24, 8),
        phoff: Field(32, 8),
        shoff: Field(40, 8),
        flags: Field(48, 4),
        ehsize: Field(52, 2),
        phentsize: Field(54, 2),
        phnum: Field(56, 2),
        shentsize: Field(58, 2),
        shnum: Field(60, 2),
        shstrndx: Field(62, 2),
    },
    section: SectionHeader {
        name: Field(0, 4),
        kind: Field(4, 4),
        flags: Field(8, 8),
        addr: Field(16, 8),
        offset: Field(24, 8),
        size: Field(32, 8),
        link: Field(40, 4),
        info: Field(44, 4),
        addralign: Field(48, 8),
        entry_size: Field(56, 8),
    },
    symbol: SymbolRow {
        name: Field(0, 4),
        info: Field(4, 1),
        other: Field(5, 1),
        section: Field(6, 2),
        value: Field(8, 8),
        size: Field(16, 8),
    },
};
