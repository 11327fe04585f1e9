//! The function symbols of the files that a process has mapped.

use crate::error::{Error, StreamError};
use crate::shim::alloc::Global;
use crate::shim::{String, Vec, io::Read as ShimRead};
use crate::{FunctionSymbol, Selection, SymbolTable, Symbolizer, Tables, mapped_at, read_load_address};
use std::fs::{self, File};
use std::io::{self, Read, Seek};
use std::path::Path;

/// Finds the function symbol at an address of a process, in its program or in a shared object: of each file whose code is mapped it
/// has the function symbols and the base. It owns them, is `Send` and `Sync`, and a lookup allocates nothing. With the feature `std`.
///
/// # Examples
///
/// The functions of a backtrace:
///
/// ```
/// use binfarce::{Process, demangle::demangle};
///
/// fn print(addresses: &[u64]) -> std::io::Result<()> {
///     let process = Process::own()?;
///     for &address in addresses {
///         match process.find_return(address) {
///             Some(it) => println!("{:#}+0x{:x} in {}", demangle(it.function.name), it.offset, it.path),
///             None => println!("0x{address:x}"),
///         }
///     }
///     Ok(())
/// }
/// ```
pub struct Process {
    files: Vec<(String, Symbolizer<'static>)>,
    refused: Vec<(String, StreamError)>,
}

/// A function symbol of a process: the answer of [`Process::find`]. With the feature `std`.
#[derive(Debug, Clone, Copy, PartialEq, Eq, Hash)]
#[non_exhaustive]
pub struct Frame<'a> {
    /// The file's path, as the maps have it.
    pub path: &'a str,
    /// The function symbol, with its address in the file.
    pub function: FunctionSymbol<'a>,
    /// The offset of the address into it.
    pub offset: u64,
}

impl Process {
    /// Reads the files of this process by `/proc/self/maps`, the program also if its file was deleted. For Linux. With the
    /// feature `std`.
    ///
    /// # Errors
    ///
    /// [`StreamError::Stream`] where the maps can't be read; [`Error::OutOfMemory`] if an allocation failed. Files that are
    /// refused are in [`Process::refused`].
    pub fn own() -> Result<Self, StreamError> {
        let mut maps = Vec::new(Global);
        ShimRead::read_to_end(&mut File::open("/proc/self/maps")?, &mut maps)?;
        let link = "/proc/self/exe";
        let program = fs::read_link(link)?;
        Process::of_maps(&maps, |path| File::open(if program == Path::new(path) { link } else { path }))
    }

    /// Reads the files of a process by a text in the form of `/proc/PID/maps`. `open` gets the path of each file of which code is
    /// mapped, once, with a ` (deleted)` behind it if the maps have that; of what it returns the headers, the tables and the last
    /// byte are read. In an ELF file without a symbol table the dynamic symbols are found. With the feature `std`.
    ///
    /// # Errors
    ///
    /// [`Error::OutOfMemory`] if an allocation failed. Files that are refused are in [`Process::refused`].
    pub fn of_maps<R, F>(maps: &[u8], mut open: F) -> Result<Self, StreamError>
    where
        R: Read + Seek,
        F: FnMut(&str) -> io::Result<R>,
    {
        let mut process = Process { files: Vec::new(Global), refused: Vec::new(Global) };
        for path in maps.split(|byte| *byte == b'\n').filter_map(path_of_code) {
            if process.has(path) {
                continue;
            }
            let kept = String::from_str(Global, path).map_err(Error::from)?;
            match open(path).map_err(StreamError::from).and_then(|file| symbolizer(maps, path, file)) {
                Ok(symbolizer) => process.files.push((kept, symbolizer)).map_err(Error::from)?,
                Err(StreamError::Refused(Error::OutOfMemory)) => return Err(Error::OutOfMemory.into()),
                Err(e) => process.refused.push((kept, e)).map_err(Error::from)?,
            }
        }
        Ok(process)
    }

    fn has(&self, path: &str) -> bool {
        self.files.iter().any(|file| &*file.0 == path) || self.refused.iter().any(|file| &*file.0 == path)
    }

    /// Returns the function symbol at an address, as [`Symbolizer::find`] does in the first file that has one. With the feature
    /// `std`.
    #[must_use]
    pub fn find(&self, address: u64) -> Option<Frame<'_>> {
        self.files.iter().find_map(|(path, file)| Some(Frame::of(path, file.find(address)?)))
    }

    /// Returns the function symbol whose call has this return address, as [`Symbolizer::find_return`] does in the first file that has
    /// one. With the feature `std`.
    #[must_use]
    pub fn find_return(&self, address: u64) -> Option<Frame<'_>> {
        self.files.iter().find_map(|(path, file)| Some(Frame::of(path, file.find_return(address)?)))
    }

    /// Returns the files that can't be used, each with the reason: a stream's own error, that of [`Tables::new`], or
    /// [`Error::NoBase`]. With the feature `std`.
    pub fn refused(&self) -> impl Iterator<Item = (&str, &StreamError)> {
        self.refused.iter().map(|(path, e)| (&**path, e))
    }
}

impl<'a> Frame<'a> {
    fn of(path: &'a str, (function, offset): (FunctionSymbol<'a>, u64)) -> Self {
        Frame { path, function, offset }
    }
}

/// The path in a line `START-END PERMISSIONS OFFSET DEVICE INODE PATH` of a mapping that may be executed.
fn path_of_code(line: &[u8]) -> Option<&str> {
    let line = std::str::from_utf8(line).ok()?;
    let is_code = line.split(' ').nth(1)?.contains('x');
    line.find('/').filter(|_| is_code).map(|at| &line[at..])
}

fn symbolizer<R: Read + Seek>(maps: &[u8], path: &str, mut file: R) -> Result<Symbolizer<'static>, StreamError> {
    let missing = Error::Parse(crate::ParseError::SectionIsMissing(".symtab"));
    let tables = match Tables::read(&mut file, Selection::All, SymbolTable::Symtab) {
        Err(StreamError::Refused(e)) if e == missing => Tables::read(&mut file, Selection::All, SymbolTable::Dynsym),
        tables => tables,
    }?;
    let loaded = read_load_address(&mut file)?;
    let base = mapped_at(maps, path.strip_suffix(" (deleted)").unwrap_or(path), loaded).ok_or(Error::NoBase)?;
    let symbolizer = Symbolizer::new(&tables)?.into_owned().map_err(Error::from)?;
    Ok(symbolizer.with_linked(loaded.map_or(0, |loaded| loaded.address)).with_base(base))
}

impl std::fmt::Debug for Process {
    fn fmt(&self, f: &mut std::fmt::Formatter<'_>) -> std::fmt::Result {
        f.debug_struct("Process").finish_non_exhaustive()
    }
}
