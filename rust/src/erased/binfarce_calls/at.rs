// From crates/binfarce_calls/src/at.rt, by tools/erase.

//! `binfarce at [OPTION..] FILE..`: its files are opened, read, and placed where they are loaded.

use crate::shim::Vec;
use crate::erased::binfarce_calls::placing::{
    base_for, base_given, count_of_files, file_at, lacks_bytes, path_for,
};
use crate::erased::binfarce_addresses::at::Places;
use crate::erased::binfarce_bytes::source::Source;
use crate::erased::binfarce_io::fault::Fault;
use crate::erased::binfarce_io::input::OpenFile;
use crate::erased::binfarce_io::message::{Unplaced, unplaced_fault};
use crate::erased::binfarce_jobs::at::{load_addresses_of, places_of, tables_at};
use crate::erased::binfarce_jobs::files::{System, open_input, refuse};
use crate::erased::binfarce_jobs::hint::Hint;
use crate::erased::binfarce_jobs::show::Symbols;
use crate::erased::binfarce_logs::maps::NoBase;
use crate::erased::binfarce_tables::ReadError;
use crate::erased::binfarce_tables::loading::LoadAddress;
use crate::erased::binfarce_tools::SymbolTable;
use crate::erased::binfarce_tools::tables::Tables;
use crate::erased::binfarce_words::flag::Flag::{Annotate, Offsets};
use crate::erased::binfarce_words::given::Arguments;
use crate::shim::alloc::{AllocError, Global};
use crate::shim::io::Read;

/// What `at` is given: its options and files, and the maps that were read.
#[derive(Clone, Copy)]
pub struct Given<'b, 'm, 'a> {
    /// The options and files.
    pub words: &'b Arguments<'a>,
    /// The maps.
    pub maps: Option<&'m [u8]>,
}

// A file that is opened.
struct Opened<F> {
    file: OpenFile<F>,
    // Where it says that it is loaded, if that is asked for.
    loaded: LoadAddress,
    // The address in it that an offset of 0 after its name means.
    origin: u64,
}

// Where a file is placed.
#[derive(Debug, Clone, Copy, PartialEq)]
enum Place {
    // At this base, if one is known.
    At(Option<u64>),
    // The maps don't place it, which is reported.
    Refused,
    // The maps have no mapping.
    NoMaps,
}

/// A file that is read.
pub struct Placed<F> {
    /// Its place among the files.
    pub place: usize,
    /// The file, if it is the only one; of several each is closed when it is read.
    pub alone: Option<OpenFile<F>>,
    /// Its tables.
    pub tables: Tables<'static>,
    /// The symbol table that they are read by.
    pub which: SymbolTable,
    /// Where it is loaded, if that is known.
    pub base: Option<u64>,
    /// Where it says that it is loaded.
    pub loaded: LoadAddress,
    /// The address in it that an offset of 0 after its name means.
    pub origin: u64,
}

/// Whether a file is read.
pub enum ReadFile<F> {
    /// It is read.
    Placed(Placed<F>),
    /// It is refused, which is reported.
    Refused,
    /// The maps have no mapping.
    NoMaps,
}

// Opens the file at a place, and reads where it says that it is loaded, if it is asked where it is, or a text is
// annotated. `None` if it is refused, which is reported.
fn open_at<F: Read + Source<Log = ()>, Y: System<F>>(
    alloc: Global,
    system: &mut Y,
    given: &Given<'_, '_, '_>,
    place: usize,
) -> Result<Option<Opened<F>>, Fault> {
    let path = file_at(given.words, place);
    let Some(file) = open_input(alloc, system, path) else {
        return Ok(None);
    };
    match loaded_in(alloc, &file, given, place) {
        Ok((loaded, origin)) => Ok(Some(Opened {
            file,
            loaded,
            origin,
        })),
        Err(e) => {
            refuse(alloc, system, path, &file, Fault::from(e))?;
            Ok(None)
        }
    }
}

// Where the file at a place says that it is loaded, and the address for an offset in a text, if these are asked for.
fn loaded_in<S: Source<Log = ()>>(
    alloc: Global,
    file: &S,
    given: &Given<'_, '_, '_>,
    place: usize,
) -> Result<(LoadAddress, u64), ReadError> {
    let is_placed = given.maps.is_some() || base_given(given.words, place).is_some();
    if is_placed || given.words.has(Annotate) || given.words.has(Offsets) {
        return load_addresses_of(alloc, file);
    }
    let loaded = LoadAddress {
        address: 0,
        code: None,
    };
    Ok((loaded, 0))
}

// Where the file at a place is loaded, which says that it is loaded there. One that the maps don't place is reported,
// unless they have no mapping, and one without the bytes that offsets are of.
fn place_at<F: Read + Source<Log = ()>, Y: System<F>>(
    alloc: Global,
    system: &mut Y,
    given: &Given<'_, '_, '_>,
    place: usize,
    loaded: LoadAddress,
) -> Place {
    if lacks_bytes(given.words, loaded) {
        let fault = unplaced_fault(alloc, &Unplaced::NoBytes);
        system.report(file_at(given.words, place), fault, None);
        return Place::Refused;
    }
    let why = match base_for(given.words, given.maps, place, loaded) {
        Ok(base) => return Place::At(base),
        Err(why) => why,
    };
    match why_unplaced(path_for(given.words, place), why) {
        Some(why) => {
            let fault = unplaced_fault(alloc, &why);
            system.report(file_at(given.words, place), fault, None);
            Place::Refused
        }
        None => Place::NoMaps,
    }
}

// Why maps don't place the file of this path. `None` if they have no mapping.
fn why_unplaced<'a>(path: &'a str, why: NoBase) -> Option<Unplaced<'a>> {
    match why {
        NoBase::NotMaps => None,
        NoBase::NotMapped => match path.rsplit_once('/') {
            Some((_, name)) => Some(Unplaced::NotMapped(path, Some(name))),
            None => Some(Unplaced::NotMapped(path, None)),
        },
        NoBase::NoCode => Some(Unplaced::NoCode(path)),
        NoBase::Several => Some(Unplaced::Several(path)),
    }
}

/// Reads all files of a text, in their order. One that is refused is reported by its path, and the others follow.
/// `None` if the maps have no mapping.
///
/// # Errors
///
/// Those of `refuse`; `OutOfMemory` if an allocation for the list fails.
pub fn read_files<F: Read + Source<Log = ()>, Y: System<F>>(
    alloc: Global,
    system: &mut Y,
    given: &Given<'_, '_, '_>,
    symbols: &Symbols<'_>,
) -> Result<Option<Vec<Placed<F>>>, Fault> {
    let mut files = Vec::new(alloc);
    for place in 0..given.words.operands.len() {
        match read_file(alloc, system, given, place, symbols)? {
            ReadFile::Placed(file) => match files.push(file) {
                Ok(()) => {}
                Err(_) => return Err(Fault::from(AllocError)),
            },
            ReadFile::Refused => {}
            ReadFile::NoMaps => return Ok(None),
        }
    }
    Ok(Some(files))
}

// The tables in which addresses of the file at a path are looked up, and the symbol table that they are read by: a hint
// says that it isn't the one that is asked for. `None` if the file is refused, which is reported.
fn tables_for<F: Read + Source<Log = ()>, Y: System<F>>(
    alloc: Global,
    system: &mut Y,
    path: &str,
    file: &OpenFile<F>,
    symbols: &Symbols<'_>,
) -> Result<Option<(Tables<'static>, SymbolTable)>, Fault> {
    match tables_at(alloc, file, symbols) {
        Ok((tables, which)) => {
            match (symbols.which, which) {
                (SymbolTable::Symtab, SymbolTable::Dynsym) => system.hint(path, Hint::Instead),
                _ => {}
            }
            Ok(Some((tables, which)))
        }
        Err(e) => {
            refuse(alloc, system, path, file, Fault::from(e))?;
            Ok(None)
        }
    }
}

/// Opens the file at a place, and reads the tables in which its addresses are looked up, and where it is loaded. One
/// that is refused is reported.
///
/// # Errors
///
/// Those of `refuse`.
pub fn read_file<F: Read + Source<Log = ()>, Y: System<F>>(
    alloc: Global,
    system: &mut Y,
    given: &Given<'_, '_, '_>,
    place: usize,
    symbols: &Symbols<'_>,
) -> Result<ReadFile<F>, Fault> {
    let Some(opened) = open_at(alloc, system, given, place)? else {
        return Ok(ReadFile::Refused);
    };
    let Opened {
        file,
        loaded,
        origin,
    } = opened;
    let Some((tables, which)) = tables_for(
        alloc,
        system,
        file_at(given.words, place),
        &file,
        symbols,
    )?
    else {
        return Ok(ReadFile::Refused);
    };
    let is_alone = count_of_files(given.words) == 1;
    match place_at(alloc, system, given, place, loaded) {
        Place::At(base) => Ok(ReadFile::Placed(Placed {
            place,
            alone: if is_alone { Some(file) } else { None },
            tables,
            which,
            base,
            loaded,
            origin,
        })),
        Place::Refused => Ok(ReadFile::Refused),
        Place::NoMaps => Ok(ReadFile::NoMaps),
    }
}

/// Files with their function symbols, which are arranged for lookups. A file that is refused is reported by its path.
///
/// # Errors
///
/// `OutOfMemory` if an allocation for the list fails.
pub fn places_of_files<'b, F: Read + Source<Log = ()>, Y: System<F>>(
    alloc: Global,
    system: &mut Y,
    given: &Given<'_, '_, '_>,
    files: &'b [Placed<F>],
) -> Result<Vec<(&'b Placed<F>, Places<'b>)>, Fault> {
    let mut found = Vec::new(alloc);
    for file in files {
        match places_of(alloc, &file.tables) {
            Ok(places) => match found.push((file, places)) {
                Ok(()) => {}
                Err(_) => return Err(Fault::from(AllocError)),
            },
            Err(fault) => system.report(file_at(given.words, file.place), fault, None),
        }
    }
    Ok(found)
}
