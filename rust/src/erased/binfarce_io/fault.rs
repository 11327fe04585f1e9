// From crates/binfarce_io/src/fault.rt, by tools/erase.

//! Why a file's result was not written, or not all of it.

use crate::shim::String;
use crate::erased::binfarce_bytes::ParseError;
use crate::erased::binfarce_filtering::stream::StreamError;
use crate::erased::binfarce_foreign::Foreign;
use crate::erased::binfarce_sections::error::SectionError;
use crate::erased::binfarce_tables::ReadError;
use crate::erased::binfarce_tools::list::ListError;
use crate::erased::binfarce_tools::report::ReportError;
use crate::shim::alloc::AllocError;
use crate::shim::error::Error;
use core::fmt;
use crate::shim::io;

/// Why a file's result was not written, or not all of it.
#[derive(Debug, PartialEq)]
pub enum Fault {
    /// The function symbols were not listed or summed.
    Report(ReportError),
    /// The file was not read, or its sections were not written.
    Section(SectionError),
    /// Standard input was not passed on.
    Stream(StreamError),
    /// The file is recognized, and no reader reads it.
    Unsupported(Foreign),
    /// The name of the file isn't UTF-8.
    NotUtf8,
    /// The sections of an object file share addresses, so one has to be named.
    SharedAddresses,
    /// What is asked for isn't known of the file, as where it is loaded, and why in words.
    Unplaced(String),
    /// This many lines of standard input have no address; all lines were answered.
    Missing(u64),
}

impl Fault {
    /// Whether a write failed.
    pub fn is_write(&self) -> bool {
        matches!(
            self,
            Fault::Report(ReportError::Write)
                | Fault::Section(SectionError::Write)
                | Fault::Stream(StreamError::Write)
        )
    }

    /// Whether a file is refused for it: not a failed write, and no fault of the whole call.
    pub fn is_of_file(&self) -> bool {
        !self.is_write() && !matches!(self, Fault::Missing(_))
    }
}

impl fmt::Display for Fault {
    fn fmt(&self, f: &mut fmt::Formatter<'_>) -> fmt::Result {
        match self {
            Fault::Report(ReportError::Parse(e)) => write!(f, "{}", Refused(*e)),
            Fault::Section(SectionError::Parse(e)) => write!(f, "{}", Refused(*e)),
            Fault::Report(e) => write!(f, "{e}"),
            Fault::Section(e) => write!(f, "{e}"),
            Fault::Stream(e) => write!(f, "{e}"),
            Fault::Unsupported(kind) => write!(f, "{kind}"),
            Fault::NotUtf8 => write!(f, "not UTF-8"),
            Fault::SharedAddresses => write!(
                f,
                "its sections share addresses; --section=NAME takes one of them"
            ),
            Fault::Unplaced(words) => write!(f, "{words}"),
            Fault::Missing(1) => write!(f, "1 line without an address"),
            Fault::Missing(count) => write!(f, "{count} lines without an address"),
        }
    }
}

impl Error for Fault {}

// A refusal of a reader, in words that say what would help.
#[derive(Debug, Clone, Copy)]
struct Refused(ParseError);

impl fmt::Display for Refused {
    fn fmt(&self, f: &mut fmt::Formatter<'_>) -> fmt::Result {
        match self.0 {
            ParseError::SectionIsMissing(".symtab") => write!(
                f,
                "no symbol table (.symtab): it is stripped"
            ),
            ParseError::SectionIsMissing(".dynsym") => write!(
                f,
                "no dynamic symbol table (.dynsym)"
            ),
            ParseError::SectionIsMissing("function symbols") => write!(f, "no function symbols"),
            ParseError::SectionIsMissing("function symbols in .dynsym") => write!(
                f,
                "no function symbols in .dynsym"
            ),
            ParseError::SymbolsSectionIsMissing => write!(
                f,
                "no such section; binfarce section lists those of an ELF file; in others .text is the code"
            ),
            e => write!(f, "{e}"),
        }
    }
}

impl From<AllocError> for Fault {
    fn from(e: AllocError) -> Self {
        Fault::Report(ReportError::from(e))
    }
}

impl From<io::Error> for Fault {
    fn from(e: io::Error) -> Self {
        Fault::from(ReadError::from(e))
    }
}

impl From<ReadError> for Fault {
    fn from(e: ReadError) -> Self {
        Fault::Section(SectionError::from(e))
    }
}

impl From<ListError> for Fault {
    fn from(e: ListError) -> Self {
        Fault::Report(ReportError::from(e))
    }
}

impl From<ReportError> for Fault {
    fn from(e: ReportError) -> Self {
        Fault::Report(e)
    }
}

impl From<SectionError> for Fault {
    fn from(e: SectionError) -> Self {
        Fault::Section(e)
    }
}

impl From<StreamError> for Fault {
    fn from(e: StreamError) -> Self {
        Fault::Stream(e)
    }
}
