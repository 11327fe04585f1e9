// From crates/binfarce_jobs/src/at.rt, by tools/erase.

//! `binfarce at [OPTION..] FILE [ADDRESS..]`: the function symbol at each address.

use crate::shim::Vec;
use crate::erased::binfarce_jobs::show::{Symbols, has_functions, tables_of};
use crate::erased::binfarce_addresses::at::{Places, write_lines};
use crate::erased::binfarce_addresses::stream::answer_lines;
use crate::erased::binfarce_addresses::{Counts, Lookup, parse_address};
use crate::erased::binfarce_bytes::ParseError;
use crate::erased::binfarce_bytes::format::Format;
use crate::erased::binfarce_bytes::source::Source;
use crate::erased::binfarce_io::fault::Fault;
use crate::erased::binfarce_tables::ReadError;
use crate::erased::binfarce_tables::format::read_format;
use crate::erased::binfarce_tables::loading::{LoadAddress, read_load_address};
use crate::erased::binfarce_tools::SymbolTable;
use crate::erased::binfarce_tools::list::Sink;
use crate::erased::binfarce_tools::tables::Tables;
use crate::erased::binfarce_words::wrong::Wrong;
use crate::shim::alloc::Global;
use crate::shim::io::Read;

/// The addresses in the words.
///
/// # Errors
///
/// `NoAddress` with the first word that isn't an address; `OutOfMemory` if an allocation fails.
pub fn read_addresses<'a>(alloc: Global, words: &[&'a str]) -> Result<Vec<u64>, Wrong<'a>> {
    let mut addresses = Vec::new(alloc);
    for word in words {
        match parse_address(word.as_bytes()) {
            Some(address) => match addresses.push(address) {
                Ok(()) => {}
                Err(_) => return Err(Wrong::OutOfMemory),
            },
            None => return Err(Wrong::NoAddress(word)),
        }
    }
    Ok(addresses)
}

/// What addresses came to.
#[derive(Debug, Clone, Copy, PartialEq)]
pub struct Answered {
    /// How many there are, and how many were found.
    pub counts: Counts,
    /// How many function symbols they were looked up in.
    pub symbols: usize,
    /// Whether one of them would be found as a return address. Of lines of standard input, which aren't kept, this isn't
    /// asked.
    pub is_behind: bool,
}

/// The tables of the source in which addresses are looked up, and the symbol table that they are read by: those for
/// these function symbols; of an ELF file without `.symtab` those by `.dynsym`, if it has function symbols there.
///
/// # Errors
///
/// Those of `tables_of` for these function symbols; a failed read or allocation also for those by `.dynsym`.
pub fn tables_at<S: Source<Log = ()>>(
    alloc: Global,
    source: &S,
    symbols: &Symbols<'_>,
) -> Result<(Tables<'static>, SymbolTable), ReadError> {
    let format = read_format(alloc, source, &mut ())?;
    match tables_of(alloc, source, symbols) {
        Ok(tables) => Ok((tables, symbols.which)),
        Err(e) => tables_after(alloc, source, symbols, &format, e),
    }
}

// The tables of a file of this format, of which those for these function symbols weren't read.
fn tables_after<S: Source<Log = ()>>(
    alloc: Global,
    source: &S,
    symbols: &Symbols<'_>,
    format: &Format,
    e: ReadError,
) -> Result<(Tables<'static>, SymbolTable), ReadError> {
    if is_elf(format) && is_no_symtab(e) {
        if let Some(tables) = dynamic_tables(alloc, source, symbols)? {
            return Ok((tables, SymbolTable::Dynsym));
        }
    }
    Err(e)
}

// Whether a file is refused since it has no `.symtab`.
fn is_no_symtab(e: ReadError) -> bool {
    matches!(
        e,
        ReadError::Refused(ParseError::SectionIsMissing(".symtab"))
    )
}

// The tables by `.dynsym`. `None` if these are refused, or have no function symbol.
fn dynamic_tables<S: Source<Log = ()>>(
    alloc: Global,
    source: &S,
    symbols: &Symbols<'_>,
) -> Result<Option<Tables<'static>>, ReadError> {
    let dynamic = Symbols {
        which: SymbolTable::Dynsym,
        selection: symbols.selection,
    };
    let tables = match tables_of(alloc, source, &dynamic) {
        Ok(tables) => tables,
        Err(ReadError::Refused(_)) => return Ok(None),
        Err(e) => return Err(e),
    };
    if has_functions(alloc, &tables)? {
        Ok(Some(tables))
    } else {
        Ok(None)
    }
}

/// Symbolizes the addresses, by this lookup and the function symbols of these tables, and counts them.
///
/// # Errors
///
/// `Unknown`, `Parse`, `OutOfMemory` and `Write` as `at` refuses; `SharedAddresses` for all sections of an object file.
pub fn answer_all<K: Sink>(
    alloc: Global,
    tables: &Tables<'_>,
    lookup: Lookup<'_>,
    addresses: &[u64],
    out: &mut K,
) -> Result<Answered, Fault> {
    let places = places_of(alloc, tables)?;
    let counts = write_lines(alloc, &places, lookup, addresses, out)?;
    Ok(Answered {
        counts,
        symbols: places.len(),
        is_behind: are_behind(&places, lookup, addresses),
    })
}

// Whether one of the addresses would be found as a return address.
fn are_behind(places: &Places<'_>, lookup: Lookup<'_>, addresses: &[u64]) -> bool {
    addresses
        .iter()
        .any(|address| is_behind(places, lookup, *address))
}

fn is_behind(places: &Places<'_>, lookup: Lookup<'_>, address: u64) -> bool {
    let mut returning = lookup;
    returning.is_return = true;
    places.find(returning, address).is_some()
}

/// Where the file itself says that it is loaded, which is the address of the base, at 0 if it doesn't say it; and the
/// address in the file that an offset of 0 after its name means. Of the source it reads headers alone.
///
/// # Errors
///
/// Those of `read_format` and `read_load_address`.
pub fn load_addresses_of<S: Source<Log = ()>>(
    alloc: Global,
    source: &S,
) -> Result<(LoadAddress, u64), ReadError> {
    let format = read_format(alloc, source, &mut ())?;
    let elf = is_elf(&format);
    let stated = read_load_address(alloc, source, &mut (), format)?;
    let loaded = stated.unwrap_or(LoadAddress {
        address: 0,
        code: None,
    });
    Ok((loaded, if elf { 0 } else { loaded.address }))
}

fn is_elf(format: &Format) -> bool {
    match format {
        Format::Elf32 { .. } | Format::Elf64 { .. } => true,
        _ => false,
    }
}

/// The places of the function symbols of these tables.
///
/// # Errors
///
/// `Unknown`, `Parse` and `OutOfMemory` as `at` refuses; `SharedAddresses` for all sections of an object file.
pub fn places_of<'a>(alloc: Global, tables: &'a Tables<'_>) -> Result<Places<'a>, Fault> {
    let places = Places::of_tables(alloc, tables)?;
    if tables.shares_addresses() {
        return Err(Fault::SharedAddresses);
    }
    Ok(places)
}

/// Symbolizes the addresses in the lines of `input`, each as soon as its line feed has come, and counts them.
///
/// # Errors
///
/// Those of `answer_all`, before anything of `input` is read; `Input` if it can't be read.
pub fn answer_input<I: Read, K: Sink>(
    alloc: Global,
    tables: &Tables<'_>,
    lookup: Lookup<'_>,
    input: &mut I,
    out: &mut K,
) -> Result<Answered, Fault> {
    let places = places_of(alloc, tables)?;
    let counts = answer_lines(alloc, &places, lookup, input, out)?;
    Ok(Answered {
        counts,
        symbols: places.len(),
        is_behind: false,
    })
}
