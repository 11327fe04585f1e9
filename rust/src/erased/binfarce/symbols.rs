// From crates/binfarce/src/symbols.rt, by tools/erase.

//! Function symbols as symbols with readable names.

use crate::shim::Vec;
use crate::erased::binfarce::elf::Functions;
use crate::erased::binfarce_bytes::functions::{FunctionSymbol, SectionFunction};
use crate::erased::binfarce_elf_memory::selection::Functions as AllFunctions;
use crate::erased::binfarce_names::demangle::{Demangler, SymbolData};
use crate::shim::alloc::{AllocError, Global};

/// One symbol for each function symbol that an ELF file's iterator has left, in order, with its name in readable form.
/// Names are copied; nothing borrows from the file.
///
/// # Errors
///
/// A failed allocation, only if a function symbol is left.
pub fn symbols_of_elf(
    alloc: Global,
    functions: AllFunctions<'_>,
) -> Result<Vec<SymbolData>, AllocError> {
    symbols_of(alloc, Functions { all: functions })
}

/// One symbol for each function symbol of a list, in order, with its name in readable form. Names are copied; nothing
/// borrows from the list.
///
/// # Errors
///
/// A failed allocation, only if the list isn't empty.
pub(crate) fn symbols_of_list(
    alloc: Global,
    functions: &[FunctionSymbol<'_>],
) -> Result<Vec<SymbolData>, AllocError> {
    symbols_of(alloc, functions.iter().copied())
}

/// The function symbols of a list, in order, without their sections.
///
/// # Errors
///
/// A failed allocation, only if the list isn't empty.
pub(crate) fn without_sections<'a>(
    alloc: Global,
    functions: &[SectionFunction<'a>],
) -> Result<Vec<FunctionSymbol<'a>>, AllocError> {
    let mut alone = Vec::new(alloc);
    for function in functions {
        alone.push(function.function)?;
    }
    Ok(alone)
}

// One symbol for each function symbol that comes, in order.
fn symbols_of<'a, I: Iterator<Item = FunctionSymbol<'a>>>(
    alloc: Global,
    functions: I,
) -> Result<Vec<SymbolData>, AllocError> {
    let mut symbols = Vec::new(alloc);
    let mut demangler = Demangler::new(alloc);
    for function in functions {
        symbols.push(symbol_of(&mut demangler, function)?)?;
    }
    Ok(symbols)
}

#[cfg_attr(not(debug_assertions), inline(always))]
fn symbol_of(
    demangler: &mut Demangler,
    function: FunctionSymbol<'_>,
) -> Result<SymbolData, AllocError> {
    Ok(SymbolData {
        name: demangler.demangle(function.name)?,
        address: function.address,
        size: function.size,
    })
}
