// From crates/binfarce_sections/src/kinds.rt, by tools/erase.

//! The types of sections and their names.

/// The type of a section, as a number of its format.
#[derive(Debug, Clone, Copy, PartialEq)]
pub enum SectionType {
    /// In an ELF file (`sh_type`).
    Elf(u32),
    /// In a Mach-O file: the low byte of its flags (`SECTION_TYPE`).
    Macho(u32),
    /// In a PE file, whose sections have no type.
    Pe,
}

impl SectionType {
    /// The type's name: in ELF as readelf prints it, such as `PROGBITS`; in Mach-O that of `<mach-o/loader.h>` without
    /// `S_`, such as `REGULAR`. `None` for a number without a name there, and in PE.
    pub fn name(self) -> Option<&'static str> {
        match self {
            SectionType::Elf(number) => elf_type_name(number),
            SectionType::Macho(number) => macho_type_name(number),
            SectionType::Pe => None,
        }
    }

    /// The type's number; `None` in PE.
    pub fn number(self) -> Option<u32> {
        match self {
            SectionType::Elf(number) | SectionType::Macho(number) => Some(number),
            SectionType::Pe => None,
        }
    }
}

// The names of `sh_type` (gABI, "Sections", and GNU's extensions).
fn elf_type_name(number: u32) -> Option<&'static str> {
    match number {
        0 => Some("NULL"),
        1 => Some("PROGBITS"),
        2 => Some("SYMTAB"),
        3 => Some("STRTAB"),
        4 => Some("RELA"),
        5 => Some("HASH"),
        6 => Some("DYNAMIC"),
        7 => Some("NOTE"),
        8 => Some("NOBITS"),
        9 => Some("REL"),
        10 => Some("SHLIB"),
        11 => Some("DYNSYM"),
        14 => Some("INIT_ARRAY"),
        15 => Some("FINI_ARRAY"),
        16 => Some("PREINIT_ARRAY"),
        17 => Some("GROUP"),
        18 => Some("SYMTAB SECTION INDICES"),
        19 => Some("RELR"),
        0x6fff_fff6 => Some("GNU_HASH"),
        0x6fff_fff7 => Some("GNU_LIBLIST"),
        0x6fff_fffd => Some("VERDEF"),
        0x6fff_fffe => Some("VERNEED"),
        0x6fff_ffff => Some("VERSYM"),
        _ => None,
    }
}

// The names of the types in a section's flags (`<mach-o/loader.h>`).
fn macho_type_name(number: u32) -> Option<&'static str> {
    match number {
        0 => Some("REGULAR"),
        1 => Some("ZEROFILL"),
        2 => Some("CSTRING_LITERALS"),
        3 => Some("4BYTE_LITERALS"),
        4 => Some("8BYTE_LITERALS"),
        5 => Some("LITERAL_POINTERS"),
        6 => Some("NON_LAZY_SYMBOL_POINTERS"),
        7 => Some("LAZY_SYMBOL_POINTERS"),
        8 => Some("SYMBOL_STUBS"),
        9 => Some("MOD_INIT_FUNC_POINTERS"),
        10 => Some("MOD_TERM_FUNC_POINTERS"),
        11 => Some("COALESCED"),
        12 => Some("GB_ZEROFILL"),
        13 => Some("INTERPOSING"),
        14 => Some("16BYTE_LITERALS"),
        15 => Some("DTRACE_DOF"),
        16 => Some("LAZY_DYLIB_SYMBOL_POINTERS"),
        17 => Some("THREAD_LOCAL_REGULAR"),
        18 => Some("THREAD_LOCAL_ZEROFILL"),
        19 => Some("THREAD_LOCAL_VARIABLES"),
        20 => Some("THREAD_LOCAL_VARIABLE_POINTERS"),
        21 => Some("THREAD_LOCAL_INIT_FUNCTION_POINTERS"),
        22 => Some("INIT_FUNC_OFFSETS"),
        _ => None,
    }
}
