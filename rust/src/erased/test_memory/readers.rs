// From crates/test_memory/src/readers.rt, by tools/erase.

//! The symbols that the reader of each format finds in bytes.

use crate::shim::Vec;
use crate::erased::binfarce::demangle::SymbolData;
use crate::erased::binfarce::{ParseError, elf32, elf64, macho, pe};
use crate::shim::alloc::Global;
use crate::erased::test_samples::elf::Layout;
use crate::erased::test_samples::files::File;

/// The symbols of a section, and its size.
pub(crate) type Symbols = Result<(Vec<SymbolData>, u64), ParseError>;

fn symbols_of_elf32(alloc: Global, file: &[u8], layout: Layout, section: &str) -> Symbols {
    match elf32::parse(file, layout.order()) {
        Err(error) => Err(error),
        Ok(elf) => elf.symbols(alloc, section),
    }
}

fn symbols_of_elf64(alloc: Global, file: &[u8], layout: Layout, section: &str) -> Symbols {
    match elf64::parse(file, layout.order()) {
        Err(error) => Err(error),
        Ok(elf) => elf.symbols(alloc, section),
    }
}

fn symbols_of_macho(alloc: Global, file: &[u8]) -> Symbols {
    match macho::parse(file) {
        Err(error) => Err(error),
        Ok(macho) => macho.symbols(alloc),
    }
}

fn symbols_of_pe(alloc: Global, file: &[u8]) -> Symbols {
    match pe::parse(file) {
        Err(error) => Err(error),
        Ok(pe) => pe.symbols(alloc),
    }
}

/// What the reader of this format finds in the bytes, of an ELF file in this section.
pub(crate) fn symbols(alloc: Global, format: File, file: &[u8], section: &str) -> Symbols {
    match format {
        File::Elf(layout) if layout.is_64() => symbols_of_elf64(alloc, file, layout, section),
        File::Elf(layout) => symbols_of_elf32(alloc, file, layout, section),
        File::Macho => symbols_of_macho(alloc, file),
        File::Pe => symbols_of_pe(alloc, file),
    }
}
