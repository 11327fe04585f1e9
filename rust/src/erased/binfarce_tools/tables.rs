// From crates/binfarce_tools/src/tables.rt, by tools/erase.

//! The tables of a file's function symbols, read from a source.

use crate::shim::Vec;
use crate::erased::binfarce_tools::functions::{
    Selected, listed, of_elf, section_functions, section_lent,
};
use crate::erased::binfarce_tools::list::ListError;
use crate::erased::binfarce::{Format, ParseError, SectionFunction, SymbolTable};
pub use crate::erased::binfarce_bytes::functions::Selection;
use crate::erased::binfarce_bytes::source::Source;
use crate::erased::binfarce_tables::format::read_format;
use crate::erased::binfarce_tables::{ReadError, VersionNames, Width, elf, macho, pe};
use crate::shim::alloc::Global;

/// The tables of a file for the function symbols of a selection: those that were read, a whole file in memory, or what
/// was made of either.
pub enum Tables<'a> {
    /// The parts of an ELF file.
    Elf(elf::Parts),
    /// The parts of a Mach-O file.
    Macho(macho::Parts),
    /// The parts of a PE file.
    Pe(pe::Parts),
    /// Nothing: the file's first bytes name no supported format.
    Unknown,
    /// All bytes of a file, and the section.
    Whole {
        file: &'a [u8],
        section: &'a str,
    },
    /// The function symbols of a section, which were made before, its size, and the names of their versions.
    Made {
        functions: Vec<SectionFunction<'a>>,
        size: u64,
        versions: VersionNames<'a>,
    },
}

impl<'a> Tables<'a> {
    /// The tables of a file in memory for a section, by the symbol table. Nothing is read yet.
    pub fn whole(file: &'a [u8], section: &'a str) -> Tables<'a> {
        Self::Whole { file, section }
    }

    /// The tables, unless their function symbols are refused: then `functions` fails only if an allocation does.
    /// Those of a file read at offsets are refused if its format is unknown.
    ///
    /// # Errors
    ///
    /// Those of `functions`.
    pub fn accepted(self, alloc: Global) -> Result<Tables<'a>, ListError> {
        if self.may_be_refused() {
            self.functions(alloc)?;
        }
        Ok(self)
    }

    // Whether the function symbols may be refused: those that were read or made of an answer aren't.
    fn may_be_refused(&self) -> bool {
        match self {
            Tables::Unknown | Tables::Whole { .. } => true,
            _ => false,
        }
    }

    /// The function symbols that the tables were read for, by the symbol table that they were read by. Those of a
    /// section are, for the symbol table, the answer of `functions_of_file`, and those of all sections that of
    /// `all_functions` of a reader.
    ///
    /// # Errors
    ///
    /// Those of `functions_of_file`; `Parse` only of a whole file.
    pub fn functions(&self, alloc: Global) -> Result<Selected<'_>, ListError> {
        match self {
            Tables::Elf(parts) => Ok(of_elf(parts.functions())),
            Tables::Macho(parts) => Ok(listed(parts.functions(alloc)?, parts.section_size())),
            Tables::Pe(parts) => Ok(listed(parts.functions(alloc)?, parts.section_size())),
            Tables::Unknown => Err(ListError::Unknown),
            Tables::Whole { file, section } => section_functions(alloc, file, section),
            Tables::Made {
                functions,
                size,
                ..
            } => Ok(section_lent(functions, *size)),
        }
    }

    /// The name of the section of this number, a slice of the tables. `None` if there is no such section, where it
    /// has no valid name, and where the tables are those of a whole file, or were made.
    pub fn section_name(&self, number: u32) -> Option<&str> {
        self.name_read(number)
    }

    fn name_read(&self, number: u32) -> Option<&str> {
        match self {
            Tables::Elf(parts) => parts.section_name(number),
            Tables::Macho(parts) => parts.section_name(number),
            Tables::Pe(parts) => parts.section_name(number),
            _ => None,
        }
    }

    /// The names of the versions that the function symbols have: those that an ELF file defines for its dynamic symbols.
    /// They borrow the tables.
    pub fn version_names(&self) -> VersionNames<'_> {
        self.versions_read()
    }

    fn versions_read(&self) -> VersionNames<'_> {
        match self {
            Tables::Elf(parts) => parts.version_names(),
            Tables::Made { versions, .. } => *versions,
            _ => VersionNames {
                offsets: None,
                strings: &[],
            },
        }
    }

    /// Whether the sections that the tables were read for share addresses: all sections of an ELF object file
    /// (`ET_REL`), and of a PE file without an image base, do, whose addresses are offsets in a section.
    pub fn shares_addresses(&self) -> bool {
        self.sharing_read()
    }

    fn sharing_read(&self) -> bool {
        match self {
            Tables::Elf(parts) => parts.shares_addresses(),
            Tables::Pe(parts) => parts.shares_addresses(),
            _ => false,
        }
    }
}

/// Reads the tables of a file for the function symbols of a selection, by this symbol table: its first 8 bytes, which
/// name its format, and the parts that `binfarce_tables` reads of a file of that format. Of a file of an unknown format
/// no other byte is read. Each part that is kept takes no more memory than the file has bytes of it; of the versions of
/// dynamic symbols the offsets of names are kept, at most 32,768.
///
/// # Errors
///
/// `Refused` with the error of the format's reader, and `SectionIsMissing` of `.dynsym` for the dynamic symbol table of
/// a Mach-O or PE file; `Unreadable` if the source can't be read at offsets, or a read of it fails, and never for a
/// source that can't fail, such as bytes in memory; `OutOfMemory` if an allocation fails.
pub fn read<S: Source>(
    alloc: Global,
    source: &S,
    log: &mut S::Log,
    which: SymbolTable,
    selection: Selection<'_>,
) -> Result<Tables<'static>, ReadError> {
    let format = read_format(alloc, source, log)?;
    read_tables(alloc, source, log, format, which, selection)
}

/// As `read`, of a file that has this format: its first 8 bytes aren't read for it.
///
/// # Errors
///
/// Those of `read`.
pub fn read_tables<S: Source>(
    alloc: Global,
    source: &S,
    log: &mut S::Log,
    format: Format,
    which: SymbolTable,
    selection: Selection<'_>,
) -> Result<Tables<'static>, ReadError> {
    match format {
        Format::Elf32 { byte_order } => {
            let parts = elf::read(
                alloc,
                source,
                log,
                Width::Bits32,
                byte_order,
                which,
                selection,
            )?;
            Ok(Tables::Elf(parts))
        }
        Format::Elf64 { byte_order } => {
            let parts = elf::read(
                alloc,
                source,
                log,
                Width::Bits64,
                byte_order,
                which,
                selection,
            )?;
            Ok(Tables::Elf(parts))
        }
        Format::Macho => {
            has_table(which)?;
            let parts = macho::read(alloc, source, log, selection)?;
            Ok(Tables::Macho(parts))
        }
        Format::PE => {
            has_table(which)?;
            let parts = pe::read(alloc, source, log, selection)?;
            Ok(Tables::Pe(parts))
        }
        Format::Unknown => Ok(Tables::Unknown),
    }
}

// Whether a Mach-O or PE file has this symbol table: none has a dynamic one.
fn has_table(which: SymbolTable) -> Result<(), ParseError> {
    match which {
        SymbolTable::Symtab => Ok(()),
        SymbolTable::Dynsym => Err(ParseError::SectionIsMissing(which.name())),
    }
}
