// From crates/binfarce_size/src/program.rt, by tools/erase.

//! The program, over any reader and any writer.

use crate::shim::String;
use crate::erased::binfarce_bytes::source::Source;
use crate::erased::binfarce_tools::list::Out;
use crate::erased::binfarce_tools::program::{
    Contents, Failure, contents_at, file_and_section, is_read_at_offsets, read_whole,
};
use crate::erased::binfarce_tools::report::{ReportError, report, report_tables};
use crate::shim::alloc::Global;
use crate::shim::io::{Read, Write};

/// Why the program did not report on a file. Its text is the printed line.
#[derive(Debug)]
pub enum Fault {
    /// The arguments aren't a file and perhaps a section.
    Usage,
    /// The file can't be opened or read.
    File,
    /// No report of the file was made.
    Report(ReportError),
}

impl core::fmt::Display for Fault {
    fn fmt(&self, f: &mut core::fmt::Formatter<'_>) -> core::fmt::Result {
        match self {
            Fault::Usage => write!(f, "usage: binfarce-size FILE [SECTION]"),
            Fault::File => write!(f, "binfarce-size: cannot read file"),
            Fault::Report(e) => write!(f, "binfarce-size: {e}"),
        }
    }
}

impl crate::shim::error::Error for Fault {}

impl From<Failure> for Fault {
    fn from(e: Failure) -> Self {
        match e {
            Failure::Usage => Fault::Usage,
            Failure::File => Fault::File,
            Failure::Refused(e) => Fault::Report(ReportError::Parse(e)),
            Failure::OutOfMemory => Fault::Report(ReportError::OutOfMemory),
            Failure::Write => Fault::Report(ReportError::Write),
        }
    }
}

impl crate::erased::binfarce_tools::program::Fault for Fault {
    fn status(&self) -> u8 {
        status(self)
    }
}

/// The file and the section in the arguments after the program's own name. The section is by default `.text`.
///
/// `Usage` for none, and for more than two.
pub fn words(arguments: &[String]) -> Result<(&str, &str), Fault> {
    Ok(file_and_section(arguments)?)
}

/// Reads a file to its end, and reports how much of its section each crate takes.
///
/// `File` if it can't be read; `Report` if an allocation fails while it is read, and as `report` refuses.
pub fn run<R: Read, W: Write>(
    alloc: Global,
    file: &mut R,
    section: &str,
    out: &mut Out<W>,
) -> Result<(), Fault> {
    let bytes = read_whole(alloc, file)?;
    report(alloc, &bytes, section, out).map_err(Fault::Report)
}

/// As `run`, but of an ELF file that can be read at offsets only the headers, the symbol table and the names are read.
pub fn run_file<F: Read + Source<Log = ()>, W: Write>(
    alloc: Global,
    file: &mut F,
    section: &str,
    out: &mut Out<W>,
) -> Result<(), Fault> {
    if !is_read_at_offsets(file) {
        return run(alloc, file, section, out);
    }
    match contents_at(alloc, file, section)? {
        Contents::Tables(tables) => report_tables(alloc, &tables, out).map_err(Fault::Report),
        Contents::Whole(bytes) => report(alloc, &bytes, section, out).map_err(Fault::Report),
    }
}

/// The program's exit status: 2 for wrong arguments, and 1 for any other fault.
pub fn status(fault: &Fault) -> u8 {
    match fault {
        Fault::Usage => 2,
        _ => 1,
    }
}
