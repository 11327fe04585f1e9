// From crates/binfarce_jobs/src/files.rt, by tools/erase.

//! Runs a command on files, one after the other.

use crate::shim::{String, Vec};
use crate::erased::binfarce_jobs::hint::{Hint, Hints, hints_on, refusal_hints};
use crate::erased::binfarce_jobs::limit::{Verdict, exceeds};
use crate::erased::binfarce_jobs::show::{Request, Seen, show};
use crate::erased::binfarce_bytes::source::Source;
use crate::erased::binfarce_io::fault::Fault;
use crate::erased::binfarce_io::input::OpenFile;
use crate::erased::binfarce_io::message::push_escaped;
use crate::erased::binfarce_io::output::Output;
use crate::erased::binfarce_limits::rows::Finding;
use crate::erased::binfarce_sections::error::SectionError;
use crate::erased::binfarce_words::argument::Argument;
use crate::shim::alloc::{AllocError, Global};
use crate::shim::io::{self, Error, Read, Write};

/// The system around a command: opened files, and messages.
pub trait System<F: Read + Source<Log = ()>> {
    /// The file at this path, to be read.
    fn open(&self, path: &str) -> io::Result<F>;

    /// Reports why the file at this path is refused. `reason` is the system's, if a read failed.
    fn report(&mut self, path: &str, fault: Fault, reason: Option<Error>);

    /// Gives a hint on the file at this path.
    fn hint(&mut self, path: &str, hint: Hint);
}

/// Shows the file at each path, in order. If there are several arguments, each file is shown under a line with its path.
/// A file that is refused, and an argument that isn't UTF-8, is reported, and the others follow. The hints on each file
/// come after what is written or reported of it; one says that a sum exceeds its limit.
///
/// # Errors
///
/// `Write` if a write fails, and `OutOfMemory` if an allocation for a heading, or for the name of an argument that
/// isn't UTF-8, fails.
pub fn show_files<F: Read + Source<Log = ()>, Y: System<F>, W: Write>(
    alloc: Global,
    system: &mut Y,
    asked: &Request<'_>,
    files: &[Argument<'_>],
    out: &mut Output<W>,
) -> Result<Verdict, Fault> {
    let are_several = files.len() > 1;
    let mut all = Verdict::done();
    for argument in files {
        let shown = show_file(alloc, system, asked, argument, are_several, out)?;
        all = all.and_then(shown);
    }
    Ok(all)
}

/// Reports that the argument at this position isn't UTF-8, which names no file.
///
/// # Errors
///
/// `OutOfMemory` if an allocation for its name fails.
pub fn refuse_argument<F: Read + Source<Log = ()>, Y: System<F>>(
    alloc: Global,
    system: &mut Y,
    at: usize,
) -> Result<Verdict, Fault> {
    let argument = Argument::NotUtf8(at);
    let name = String::formatted(alloc, format_args!("{argument}"))?;
    system.report(name.as_str(), Fault::NotUtf8, None);
    let verdict = Verdict::refused();
    Ok(verdict)
}

// Shows the file at a path, under its heading, or reports why it, or the argument, is refused.
fn show_file<F: Read + Source<Log = ()>, Y: System<F>, W: Write>(
    alloc: Global,
    system: &mut Y,
    asked: &Request<'_>,
    argument: &Argument<'_>,
    are_several: bool,
    out: &mut Output<W>,
) -> Result<Verdict, Fault> {
    let path = match argument {
        Argument::Text(path) => *path,
        Argument::NotUtf8(at) => return refuse_argument(alloc, system, *at),
    };
    out.begin(heading(alloc, path, are_several)?);
    let Some(input) = open_input(alloc, system, path) else {
        return Ok(Verdict::refused());
    };
    match show_source(alloc, asked, path, &input, out) {
        Ok(seen) => {
            let hints = hints_on(alloc, &input, asked, seen);
            let is_above = exceeds(&hints.excess, &hints.rows);
            give_all(system, path, hints);
            Ok(Verdict {
                is_done: true,
                is_above,
            })
        }
        Err(fault) => refuse(alloc, system, path, &input, fault),
    }
}

/// What precedes a file's text: of several files, its name in a line, with its control characters escaped as in messages.
///
/// # Errors
///
/// `AllocError` if an allocation fails.
pub fn heading(alloc: Global, path: &str, are_several: bool) -> Result<Vec<u8>, AllocError> {
    if !are_several {
        return Ok(Vec::new(alloc));
    }
    let mut text = String::from_str(alloc, "\n")?;
    push_escaped(&mut text, path)?;
    text.push_str(":\n")?;
    Vec::from_slice(alloc, text.as_bytes())
}

// Shows the source after what is left of the heading, which is written also if the text is empty.
fn show_source<S: Source<Log = ()>, W: Write>(
    alloc: Global,
    asked: &Request<'_>,
    path: &str,
    source: &S,
    out: &mut Output<W>,
) -> Result<Seen, Fault> {
    let seen = show(alloc, asked, path, source, out)?;
    out.end()?;
    Ok(seen)
}

/// Opens the file at this path, and loads it. `None` if it can't be opened or read, or if its first bytes name
/// what no reader reads, which is reported.
pub fn open_input<F: Read + Source<Log = ()>, Y: System<F>>(
    alloc: Global,
    system: &mut Y,
    path: &str,
) -> Option<OpenFile<F>> {
    let mut input = match system.open(path) {
        Ok(file) => OpenFile::new(file),
        Err(e) => {
            system.report(path, Fault::Section(SectionError::Unreadable), Some(e));
            return None;
        }
    };
    if let Err(fault) = input.load(alloc) {
        system.report(path, fault, input.take_reason());
        return None;
    }
    Some(input)
}

/// Gives the hint, if there is one.
pub fn give<F: Read + Source<Log = ()>, Y: System<F>>(
    system: &mut Y,
    path: &str,
    hint: Option<Hint>,
) {
    match hint {
        Some(hint) => system.hint(path, hint),
        None => {}
    }
}

// Gives all of these hints, in their order.
fn give_all<F: Read + Source<Log = ()>, Y: System<F>>(system: &mut Y, path: &str, hints: Hints) {
    let Hints {
        first,
        second,
        excess,
        rows,
    } = hints;
    give(system, path, first);
    give(system, path, second);
    give(system, path, excess);
    give_rows(system, path, rows);
}

/// Gives what is said of rows, in its order.
pub fn give_rows<F: Read + Source<Log = ()>, Y: System<F>>(
    system: &mut Y,
    path: &str,
    rows: Vec<Finding>,
) {
    for row in rows {
        system.hint(path, Hint::Row(row));
    }
}

/// Reports why the file at this path is refused, with hints on what would help.
///
/// # Errors
///
/// A fault that isn't the file's: a failed write, or one of the whole call.
pub fn refuse<F: Read + Source<Log = ()>, Y: System<F>>(
    alloc: Global,
    system: &mut Y,
    path: &str,
    input: &OpenFile<F>,
    fault: Fault,
) -> Result<Verdict, Fault> {
    if !fault.is_of_file() {
        return Err(fault);
    }
    let hints = refusal_hints(alloc, input, &fault);
    system.report(path, fault, input.take_reason());
    give_all(system, path, hints);
    Ok(Verdict::refused())
}
