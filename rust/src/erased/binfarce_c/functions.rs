// From crates/binfarce_c/src/functions.rt, by tools/erase.

//! The function symbols of a file as they are stored, in a caller's array.

use crate::shim::Vec;
use crate::erased::binfarce_c::buffer::put;
use crate::erased::binfarce_c::status::{
    NOT_UTF8, OK, UNKNOWN_FORMAT, detail_of, foreign_in, foreign_status, status_of,
};
use crate::erased::binfarce::{
    ByteOrder, Format, FunctionSymbol, ParseError, SectionFunction, SymbolTable, detect_format,
    elf32, elf64, macho, pe,
};
use crate::erased::binfarce_elf::class::Width;
use crate::shim::alloc::{AllocError, Global};
use crate::shim::ptr;
use core::str;

// The function symbols of a file and the size of their section, or the refusal.
type Found = Result<(Vec<Function>, u64), ParseError>;

/// A function symbol in a caller's array: `struct binfarce_function`.
#[repr(C)]
#[derive(Clone, Copy)]
pub struct Function {
    /// The first byte of the name as the file stores it, in the file; null if the name is empty.
    pub name: *const u8,
    /// The length of the name in bytes.
    pub name_length: usize,
    /// The address, as the file stores it; in a PE file the offset in the section.
    pub address: u64,
    /// The size in bytes.
    pub size: u64,
}

/// What a call that gives function symbols returns: `struct binfarce_functions`.
#[repr(C)]
pub struct Functions {
    /// How the call ended.
    pub status: u32,
    /// For `BINFARCE_UNEXPECTED_SECTION_TYPE` the type that was found, and else 0.
    pub detail: u32,
    /// How many function symbols there are, however many of them the array had room for.
    pub count: usize,
    /// The size of their section in bytes.
    pub section_size: u64,
}

/// The function symbols of a file of any format in the order of its listing. See `binfarce.h`.
pub fn binfarce_functions(
    alloc: Global,
    file: &[u8],
    section: &[u8],
    out: &mut [Function],
) -> Functions {
    let Ok(section) = str::from_utf8(section) else {
        return nothing(NOT_UTF8, 0);
    };
    match foreign_in(file) {
        None => of_section(alloc, file, section, out),
        Some(foreign) => nothing(foreign_status(foreign), 0),
    }
}

// Those of a file that isn't foreign.
fn of_section(alloc: Global, file: &[u8], section: &str, out: &mut [Function]) -> Functions {
    match detect_format(file) {
        Format::Elf32 { byte_order } => {
            give(of_elf(alloc, file, Width::Bits32, byte_order, section), out)
        }
        Format::Elf64 { byte_order } => {
            give(of_elf(alloc, file, Width::Bits64, byte_order, section), out)
        }
        Format::Macho => give(of_macho(alloc, file), out),
        Format::PE => give(of_pe(alloc, file), out),
        Format::Unknown => nothing(UNKNOWN_FORMAT, 0),
    }
}

/// The function symbols of all sections of a file of any format. See `binfarce.h`.
pub fn binfarce_all_functions(
    alloc: Global,
    file: &[u8],
    table: u32,
    out: &mut [Function],
) -> Functions {
    match foreign_in(file) {
        None => of_all(alloc, file, table_of(table), out),
        Some(foreign) => nothing(foreign_status(foreign), 0),
    }
}

// Those of a file that isn't foreign, by this symbol table.
fn of_all(alloc: Global, file: &[u8], which: SymbolTable, out: &mut [Function]) -> Functions {
    match detect_format(file) {
        Format::Elf32 { byte_order } => {
            give(
                all_of_elf(alloc, file, Width::Bits32, byte_order, which),
                out,
            )
        }
        Format::Elf64 { byte_order } => {
            give(
                all_of_elf(alloc, file, Width::Bits64, byte_order, which),
                out,
            )
        }
        Format::Macho => give(all_of_macho(alloc, file, which), out),
        Format::PE => give(all_of_pe(alloc, file, which), out),
        Format::Unknown => nothing(UNKNOWN_FORMAT, 0),
    }
}

/// The function that an address symbolizes to, in an array of functions: its index, or the array's length where none
/// holds it. See `binfarce.h`.
pub fn binfarce_function_at(functions: &[Function], address: u64) -> usize {
    let mut found = None;
    for index in 0..functions.len() {
        found = found_with(found, functions[index], index, address);
    }
    match found {
        Some((index, _)) => index,
        None => functions.len(),
    }
}

// The index and the address of the function that was found before this one, or those of this one.
fn found_with(
    found: Option<(usize, u64)>,
    function: Function,
    index: usize,
    address: u64,
) -> Option<(usize, u64)> {
    if !holds(function, address) {
        return found;
    }
    match found {
        None => Some((index, function.address)),
        Some((first, highest)) => {
            if function.address <= highest {
                Some((first, highest))
            } else {
                Some((index, function.address))
            }
        }
    }
}

// Whether its range holds the address. The end of the range may lie past 64 bits.
fn holds(function: Function, address: u64) -> bool {
    function.address <= address && address - function.address < function.size.max(1)
}

fn of_elf(alloc: Global, file: &[u8], width: Width, byte_order: ByteOrder, section: &str) -> Found {
    let (functions, size) = stored_in_elf(file, width, byte_order, section)?;
    Ok((all_of(alloc, functions)?, size))
}

// The function symbols of an ELF file as it stores them, and the size of their section, or the refusal.
fn stored_in_elf<'a>(
    file: &'a [u8],
    width: Width,
    byte_order: ByteOrder,
    section: &str,
) -> Result<(elf32::Functions<'a>, u64), ParseError> {
    match width {
        Width::Bits32 => elf32::parse(file, byte_order)?.functions(section),
        Width::Bits64 => elf64::parse(file, byte_order)?.functions(section),
    }
}

fn of_macho(alloc: Global, file: &[u8]) -> Found {
    let (functions, size) = macho::parse(file)?.functions(alloc)?;
    Ok((all_stored(alloc, functions)?, size))
}

fn of_pe(alloc: Global, file: &[u8]) -> Found {
    let (functions, size) = pe::parse(file)?.functions(alloc)?;
    Ok((all_stored(alloc, functions)?, size))
}

// The function symbols of all sections of an ELF file, by this symbol table.
fn all_of_elf(
    alloc: Global,
    file: &[u8],
    width: Width,
    byte_order: ByteOrder,
    which: SymbolTable,
) -> Found {
    all_listed(alloc, listed_in_elf(alloc, file, width, byte_order, which))
}

fn listed_in_elf<'a>(
    alloc: Global,
    file: &'a [u8],
    width: Width,
    byte_order: ByteOrder,
    which: SymbolTable,
) -> Result<Vec<SectionFunction<'a>>, ParseError> {
    match width {
        Width::Bits32 => elf32::parse(file, byte_order)?.all_functions(alloc, which),
        Width::Bits64 => elf64::parse(file, byte_order)?.all_functions(alloc, which),
    }
}

// Those of a Mach-O file, which has no dynamic symbol table.
fn all_of_macho(alloc: Global, file: &[u8], which: SymbolTable) -> Found {
    match which {
        SymbolTable::Symtab => symtab_of_macho(alloc, file),
        SymbolTable::Dynsym => Err(ParseError::SectionIsMissing(which.name())),
    }
}

fn symtab_of_macho(alloc: Global, file: &[u8]) -> Found {
    all_listed(alloc, listed_in_macho(alloc, file))
}

fn listed_in_macho(alloc: Global, file: &[u8]) -> Result<Vec<SectionFunction<'_>>, ParseError> {
    macho::parse(file)?.all_functions(alloc)
}

// Those of a PE file, which has none either.
fn all_of_pe(alloc: Global, file: &[u8], which: SymbolTable) -> Found {
    match which {
        SymbolTable::Symtab => symtab_of_pe(alloc, file),
        SymbolTable::Dynsym => Err(ParseError::SectionIsMissing(which.name())),
    }
}

fn symtab_of_pe(alloc: Global, file: &[u8]) -> Found {
    all_listed(alloc, listed_in_pe(alloc, file))
}

fn listed_in_pe(alloc: Global, file: &[u8]) -> Result<Vec<SectionFunction<'_>>, ParseError> {
    pe::parse(file)?.all_functions(alloc)
}

// The symbol table that a caller names.
fn table_of(table: u32) -> SymbolTable {
    match table {
        0 => SymbolTable::Symtab,
        _ => SymbolTable::Dynsym,
    }
}

// Each function symbol of a list with sections, or its refusal.
fn all_listed(alloc: Global, listed: Result<Vec<SectionFunction<'_>>, ParseError>) -> Found {
    match listed {
        Ok(functions) => Ok((each_of(alloc, functions)?, 0)),
        Err(e) => Err(e),
    }
}

fn each_of(alloc: Global, list: Vec<SectionFunction<'_>>) -> Result<Vec<Function>, AllocError> {
    let mut all = Vec::new(alloc);
    for listed in list {
        all.push(function_of(listed.function))?;
    }
    Ok(all)
}

// Each function symbol of a list.
fn all_stored(alloc: Global, list: Vec<FunctionSymbol<'_>>) -> Result<Vec<Function>, AllocError> {
    Ok(all_of(alloc, list.into_iter())?)
}

// Each function symbol that comes, in order.
fn all_of<'a, I: Iterator<Item = FunctionSymbol<'a>>>(
    alloc: Global,
    functions: I,
) -> Result<Vec<Function>, AllocError> {
    let mut all = Vec::new(alloc);
    for function in functions {
        all.push(function_of(function))?;
    }
    Ok(all)
}

fn function_of(function: FunctionSymbol<'_>) -> Function {
    let name = function.name.as_bytes();
    Function {
        name: start(name),
        name_length: name.len(),
        address: function.address,
        size: function.size,
    }
}

/// The pointer to a text, at its first byte; null if it is empty.
pub(crate) fn start(text: &[u8]) -> *const u8 {
    match text {
        [] => ptr::null(),
        [first, ..] => ptr::from_ref(first),
    }
}

// The functions that were found, in the array.
fn give(found: Found, out: &mut [Function]) -> Functions {
    match found {
        Ok((functions, size)) => {
            put(functions.as_slice(), out);
            Functions {
                status: OK,
                detail: 0,
                count: functions.len(),
                section_size: size,
            }
        }
        Err(e) => nothing(status_of(e), detail_of(e)),
    }
}

fn nothing(status: u32, detail: u32) -> Functions {
    Functions {
        status,
        detail,
        count: 0,
        section_size: 0,
    }
}
