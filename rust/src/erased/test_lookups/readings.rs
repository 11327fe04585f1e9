// From crates/test_lookups/src/readings.rt, by tools/erase.

//! What each reading asks a source for, how it ends where the source fails, and whether it answers as the bytes do.

use crate::shim::Vec;
use crate::erased::test_lookups::Asking;
use crate::erased::test_lookups::sections::{push_shown, push_writes};
use crate::erased::test_lookups::sources::Faulty;
use crate::erased::test_lookups::words::{
    known, numbers, push_hex, push_number, push_runs, push_words, words_of,
};
use crate::erased::binfarce_bytes::format::Format;
use crate::erased::binfarce_bytes::source::Source;
use crate::erased::binfarce_sections::error::SectionError;
use crate::erased::binfarce_tables::loading::read_load_address;
use crate::erased::binfarce_tables::{elf, macho, pe};
use crate::erased::binfarce_tools::SymbolTable;
use crate::erased::binfarce_tools::tables::{Selection, read as read_tables};
use crate::shim::io::{self, ErrorKind, Write};
use crate::erased::test_reading::recording::{LoggedPart, Recorded, read_recorded};
use crate::erased::test_reading::{Asked, parts, whole, width_of};
use crate::erased::test_samples::files::File;
use crate::erased::test_samples::{first_bytes, patched};

/// A call that reads a source.
#[derive(Clone, Copy)]
pub(crate) enum Reading<'a> {
    // The sections, by the reader of the format.
    Sections,
    // Where the file is loaded.
    LoadAddress,
    // What is asked of whole files too.
    Asked(Asked<'a>),
    // The function symbols of a selection by a symbol table, of a file of any format.
    Functions(SymbolTable, Selection<'a>),
}

/// The reading that is named.
pub(crate) fn reading_of(words: &str) -> io::Result<Reading<'_>> {
    let (verb, name) = words.split_once(' ').unwrap_or((words, ""));
    known(match verb {
        "sections" => Some(Reading::Sections),
        "address" => Some(Reading::LoadAddress),
        "lines" => Some(Reading::Asked(Asked::Lines)),
        "bytes" => Some(Reading::Asked(Asked::Bytes(name))),
        "functions" => Some(Reading::Asked(Asked::Functions(Some(name)))),
        "all" => Some(Reading::Asked(Asked::Functions(None))),
        "symtab" => functions(SymbolTable::Symtab, Selection::Section(name)),
        "dynsym" => functions(SymbolTable::Dynsym, Selection::Section(name)),
        "all-symtab" => functions(SymbolTable::Symtab, Selection::All),
        "all-dynsym" => functions(SymbolTable::Dynsym, Selection::All),
        _ => None,
    })
}

fn functions(which: SymbolTable, selection: Selection<'_>) -> Option<Reading<'_>> {
    Some(Reading::Functions(which, selection))
}

/// Adds the answer to a question of a reading.
pub(crate) fn answer(of: &Asking<'_>, verb: &str, text: &mut Vec<u8>) -> io::Result<()> {
    let reading = reading_of(of.words)?;
    match (verb, reading) {
        ("asked", _) => push_asked(of, reading, text),
        ("withheld", _) => push_withheld(of, reading, text),
        ("failing", _) => push_failing(of, reading, text),
        ("shorter", _) => push_shorter(of, reading, text),
        ("longer", Reading::Asked(asked)) => push_longer(of, asked, text),
        ("prefixes", Reading::Asked(asked)) => push_prefixes(of, asked, text),
        ("changed", Reading::Asked(asked)) => push_changed(of, asked, text),
        ("show", Reading::Asked(asked)) => push_shown(of, asked, false, text),
        ("hex", Reading::Asked(asked)) => push_shown(of, asked, true, text),
        ("writes", Reading::Asked(asked)) => push_writes(of, asked, text),
        _ => known(None),
    }
}

fn read<S: Source>(
    of: &Asking<'_>,
    source: &S,
    log: &mut S::Log,
    reading: Reading<'_>,
) -> Result<(), SectionError> {
    match reading {
        Reading::Sections => read_sections(of, source, log)?,
        Reading::LoadAddress => {
            let _ = read_load_address(of.alloc, source, log, format_of(of.kind))?;
        }
        Reading::Asked(asked) => return parts(of.alloc, of.kind, source, log, asked).ended,
        Reading::Functions(which, selection) => {
            let _ = read_tables(of.alloc, source, log, which, selection)?;
        }
    }
    Ok(())
}

fn read_sections<S: Source>(
    of: &Asking<'_>,
    source: &S,
    log: &mut S::Log,
) -> Result<(), SectionError> {
    match of.kind {
        File::Elf(layout) => {
            let width = width_of(layout);
            let _ = elf::read_sections(of.alloc, source, log, width, layout.order())?;
        }
        File::Macho => {
            let _ = macho::read_sections(of.alloc, source, log)?;
        }
        File::Pe => {
            let _ = pe::read_sections(of.alloc, source, log)?;
        }
    }
    Ok(())
}

// The format of a sample.
fn format_of(kind: File) -> Format {
    match kind {
        File::Elf(layout) if layout.is_64() => Format::Elf64 {
            byte_order: layout.order(),
        },
        File::Elf(layout) => Format::Elf32 {
            byte_order: layout.order(),
        },
        File::Macho => Format::Macho,
        File::Pe => Format::PE,
    }
}

/// Adds the address at which the file is loaded.
pub(crate) fn push_loaded(of: &Asking<'_>, text: &mut Vec<u8>) -> io::Result<()> {
    match read_load_address(of.alloc, &of.file, &mut (), format_of(of.kind)) {
        Ok(Some(loaded)) => push_hex(text, loaded.address),
        Ok(None) => push_words(text, "none"),
        Err(e) => write!(text, "{}", SectionError::from(e)),
    }
}

// How the reading of a source ends.
fn ended(of: &Asking<'_>, source: &Faulty<'_>, reading: Reading<'_>) -> io::Result<Vec<u8>> {
    words_of(of.alloc, &read(of, source, &mut (), reading), "read")
}

// How the reading ends, and the parts that it asks for.
fn push_asked(of: &Asking<'_>, reading: Reading<'_>, text: &mut Vec<u8>) -> io::Result<()> {
    let (ended, log) = recorded(of, reading);
    text.extend_from_slice(&words_of(of.alloc, &ended, "read")?)?;
    for part in &log {
        write!(text, " {}+{}", part.offset, part.size)?;
    }
    Ok(())
}

fn recorded(of: &Asking<'_>, reading: Reading<'_>) -> (Result<(), SectionError>, Vec<LoggedPart>) {
    if let Reading::Functions(which, selection) = reading {
        let (tables, log) = read_recorded(of.alloc, of.file, which, selection);
        let ended = match tables {
            Ok(_) => Ok(()),
            Err(e) => Err(SectionError::from(e)),
        };
        return (ended, log);
    }
    let mut log = Vec::new(of.alloc);
    let ended = read(of, &Recorded { file: of.file }, &mut log, reading);
    (ended, log)
}

// How the reading ends if the source gives the parts of the question alone, and if it gives all of them but one.
fn push_withheld(of: &Asking<'_>, reading: Reading<'_>, text: &mut Vec<u8>) -> io::Result<()> {
    let parts = numbers(of.alloc, of.parts, false)?;
    push_runs(of.alloc, text, parts.len().saturating_add(1), |i| {
        let source = Faulty {
            given: Some(&parts),
            withheld: i.checked_sub(1),
            ..Faulty::of(of.file)
        };
        ended(of, &source, reading)
    })
}

const ERRORS: [ErrorKind; 5] = [
    ErrorKind::Other,
    ErrorKind::UnexpectedEof,
    ErrorKind::Unsupported,
    ErrorKind::Interrupted,
    ErrorKind::OutOfMemory,
];

// How many calls are made, and how the reading ends if the source fails from one of them on, each in turn.
fn push_failing(of: &Asking<'_>, reading: Reading<'_>, text: &mut Vec<u8>) -> io::Result<()> {
    let source = Faulty::of(of.file);
    let _ = read(of, &source, &mut (), reading);
    let count = source.calls.into_inner();
    push_number(text, count as u64)?;
    push_words(text, "calls")?;
    for error in ERRORS {
        push_words(text, "; ")?;
        push_runs(of.alloc, text, count, |answered| {
            let source = Faulty {
                answered,
                error,
                ..Faulty::of(of.file)
            };
            ended(of, &source, reading)
        })?;
    }
    Ok(())
}

// How the reading ends if the file becomes shorter after its length was given: by how many bytes are left.
fn push_shorter(of: &Asking<'_>, reading: Reading<'_>, text: &mut Vec<u8>) -> io::Result<()> {
    push_runs(of.alloc, text, of.file.len(), |count| {
        let source = Faulty {
            bytes: first_bytes(of.file, count),
            ..Faulty::of(of.file)
        };
        ended(of, &source, reading)
    })
}

// Whether a source gives the answer that the bytes of a file give.
fn compared<S: Source<Log = ()>>(
    of: &Asking<'_>,
    file: &[u8],
    source: &S,
    asked: Asked<'_>,
) -> io::Result<Vec<u8>> {
    let is_same = whole(of.alloc, of.kind, file, asked)
        == parts(of.alloc, of.kind, source, &mut (), asked);
    words_of(of.alloc, &Ok(()), if is_same { "same" } else { "other" })
}

// The answers where a file becomes longer after its length was given, which must be those of its bytes up to there.
fn push_longer(of: &Asking<'_>, asked: Asked<'_>, text: &mut Vec<u8>) -> io::Result<()> {
    push_runs(of.alloc, text, of.file.len(), |count| {
        let source = Faulty {
            length: count as u64,
            ..Faulty::of(of.file)
        };
        compared(of, first_bytes(of.file, count), &source, asked)
    })
}

// The answers to each number of the first bytes of a file.
fn push_prefixes(of: &Asking<'_>, asked: Asked<'_>, text: &mut Vec<u8>) -> io::Result<()> {
    push_runs(of.alloc, text, of.file.len().saturating_add(1), |count| {
        let part = first_bytes(of.file, count);
        compared(of, part, &part, asked)
    })
}

// Bytes that are written over others: none, the least, and the greatest of each width.
const BYTES: [&[u8]; 5] = [&[0], &[1], &[0xFF; 2], &[0xFF; 4], &[0xFF; 8]];

// The answers where these bytes are at an offset, each in turn.
fn push_changed(of: &Asking<'_>, asked: Asked<'_>, text: &mut Vec<u8>) -> io::Result<()> {
    for bytes in BYTES {
        push_runs(of.alloc, text, of.file.len(), |offset| {
            let file = patched(of.alloc, of.file, &[(offset, bytes)])?;
            compared(of, &file, &file.as_slice(), asked)
        })?;
        push_words(text, "; ")?;
    }
    Ok(())
}
