// From crates/binfarce_list/src/program.rt, by tools/erase.

//! The program, over any reader and any writer.

use crate::shim::String;
use crate::erased::binfarce_bytes::source::Source;
use crate::erased::binfarce_tools::list::{ListError, Out, list, list_tables};
use crate::erased::binfarce_tools::program::{
    Contents, Failure, contents_at, file_and_section, is_read_at_offsets, read_whole,
};
use crate::shim::alloc::Global;
use crate::shim::io::{Read, Write};

/// Why the program did not list a file. Its text is the printed line.
#[derive(Debug)]
pub enum Fault {
    /// The arguments aren't a file and perhaps a section.
    Usage,
    /// The file can't be opened or read.
    File,
    /// The file was not listed.
    List(ListError),
}

impl core::fmt::Display for Fault {
    fn fmt(&self, f: &mut core::fmt::Formatter<'_>) -> core::fmt::Result {
        match self {
            Fault::Usage => write!(f, "usage: binfarce-list FILE [SECTION]"),
            Fault::File => write!(f, "binfarce-list: cannot read file"),
            Fault::List(e) => write!(f, "binfarce-list: {e}"),
        }
    }
}

impl crate::shim::error::Error for Fault {}

impl From<Failure> for Fault {
    fn from(e: Failure) -> Self {
        match e {
            Failure::Usage => Fault::Usage,
            Failure::File => Fault::File,
            Failure::Refused(e) => Fault::List(ListError::Parse(e)),
            Failure::OutOfMemory => Fault::List(ListError::OutOfMemory),
            Failure::Write => Fault::List(ListError::Write),
        }
    }
}

impl crate::erased::binfarce_tools::program::Fault for Fault {
    fn status(&self) -> u8 {
        status(self)
    }
}

/// The file and the section in the arguments after the program's own name. The section is by default `.text`.
///
/// `Usage` for none, and for more than two.
pub fn words(arguments: &[String]) -> Result<(&str, &str), Fault> {
    Ok(file_and_section(arguments)?)
}

/// Reads a file to its end, and lists the function symbols of its section.
///
/// `File` if it can't be read; `List` if an allocation fails while it is read, and as `list` refuses.
pub fn run<R: Read, W: Write>(
    alloc: Global,
    file: &mut R,
    section: &str,
    out: &mut Out<W>,
) -> Result<(), Fault> {
    let bytes = read_whole(alloc, file)?;
    list(alloc, &bytes, section, out).map_err(Fault::List)
}

/// As `run`, but of an ELF file that can be read at offsets only the headers, the symbol table and the names are read.
pub fn run_file<F: Read + Source<Log = ()>, W: Write>(
    alloc: Global,
    file: &mut F,
    section: &str,
    out: &mut Out<W>,
) -> Result<(), Fault> {
    if !is_read_at_offsets(file) {
        return run(alloc, file, section, out);
    }
    match contents_at(alloc, file, section)? {
        Contents::Tables(tables) => list_tables(alloc, &tables, out).map_err(Fault::List),
        Contents::Whole(bytes) => list(alloc, &bytes, section, out).map_err(Fault::List),
    }
}

/// The program's exit status: 2 for wrong arguments, and 1 for any other fault.
pub fn status(fault: &Fault) -> u8 {
    match fault {
        Fault::Usage => 2,
        _ => 1,
    }
}
