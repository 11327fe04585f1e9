// From crates/binfarce_calls/src/sections.rt, by tools/erase.

//! The sections of files: what is asked for of those of one, and how many bytes those of several have.

use crate::shim::Vec;
use crate::erased::binfarce_calls::limits::section_rows;
use crate::erased::binfarce_bytes::source::Source;
use crate::erased::binfarce_io::fault::Fault;
use crate::erased::binfarce_io::output::Output;
use crate::erased::binfarce_jobs::files::{
    System, give, give_rows, heading, open_input, refuse, refuse_argument,
};
use crate::erased::binfarce_jobs::limit::{Verdict, above, exceeds};
use crate::erased::binfarce_jobs::section::{Asked, write_sections};
use crate::erased::binfarce_jobs::show::Request;
use crate::erased::binfarce_limits::rows::{Finding, RowLimit};
use crate::erased::binfarce_rows::json::Form;
use crate::erased::binfarce_sections::sums::{SectionSums, sum_sections};
use crate::erased::binfarce_sections::tables::read;
use crate::erased::binfarce_words::argument::Argument;
use crate::shim::alloc::Global;
use crate::shim::io::{Read, Write};

/// Writes what is asked for of the sections of the file at this path, or reports why it is refused.
///
/// # Errors
///
/// `Write` if a write fails.
pub fn show_section<F: Read + Source<Log = ()>, Y: System<F>, W: Write>(
    alloc: Global,
    system: &mut Y,
    path: &str,
    asked: Asked<'_>,
    form: Form<'_>,
    out: &mut Output<W>,
) -> Result<Verdict, Fault> {
    let Some(input) = open_input(alloc, system, path) else {
        return Ok(Verdict::refused());
    };
    // No heading precedes the text.
    out.begin(Vec::new(alloc));
    let written = write_sections(alloc, &input, asked, form, out);
    out.end()?;
    match written {
        Ok(()) => Ok(Verdict::done()),
        Err(e) => refuse(alloc, system, path, &input, Fault::from(e)),
    }
}

/// Writes how many bytes of the file at each path its sections have, in order. Of several arguments, each file is under a
/// line with its path. A file that is refused, and an argument that isn't UTF-8, is reported, and the others follow. A
/// length that exceeds the limit is reported, too.
///
/// # Errors
///
/// `Write` if a write fails, and `OutOfMemory` if an allocation for a heading, or for the name of an argument that
/// isn't UTF-8, fails.
pub fn sum_files<F: Read + Source<Log = ()>, Y: System<F>, W: Write>(
    alloc: Global,
    system: &mut Y,
    asked: &Request<'_>,
    first: Option<usize>,
    files: &[Argument<'_>],
    out: &mut Output<W>,
) -> Result<Verdict, Fault> {
    let are_several = files.len() > 1;
    let mut all = Verdict::done();
    for argument in files {
        let summed = sum_argument(alloc, system, asked, first, argument, are_several, out)?;
        all = all.and_then(summed);
    }
    Ok(all)
}

// Writes how many bytes of the file at a path its sections have, or reports why it, or the argument, is refused.
fn sum_argument<F: Read + Source<Log = ()>, Y: System<F>, W: Write>(
    alloc: Global,
    system: &mut Y,
    asked: &Request<'_>,
    first: Option<usize>,
    argument: &Argument<'_>,
    are_several: bool,
    out: &mut Output<W>,
) -> Result<Verdict, Fault> {
    match argument {
        Argument::Text(path) => sum_file(alloc, system, asked, first, path, are_several, out),
        Argument::NotUtf8(at) => refuse_argument(alloc, system, *at),
    }
}

// Writes how many bytes of a file its sections have, under its heading, or reports why it is refused.
fn sum_file<F: Read + Source<Log = ()>, Y: System<F>, W: Write>(
    alloc: Global,
    system: &mut Y,
    asked: &Request<'_>,
    first: Option<usize>,
    path: &str,
    are_several: bool,
    out: &mut Output<W>,
) -> Result<Verdict, Fault> {
    out.begin(heading(alloc, path, are_several)?);
    let Some(input) = open_input(alloc, system, path) else {
        return Ok(Verdict::refused());
    };
    let form = form_at(asked, path);
    match sum_source(alloc, &input, first, asked.limits, form, out) {
        Ok(summed) => {
            let excess = above(summed.length, asked.limit);
            let is_above = exceeds(&excess, &summed.rows);
            give(system, path, excess);
            give_rows(system, path, summed.rows);
            Ok(Verdict {
                is_done: true,
                is_above,
            })
        }
        Err(fault) => refuse(alloc, system, path, &input, fault),
    }
}

// The form in which the sums of the file at this path are written.
fn form_at<'a>(asked: &Request<'a>, path: &'a str) -> Form<'a> {
    if asked.is_json {
        Form::Objects(path, "")
    } else {
        Form::Lines
    }
}

// A file that is summed: its length, and which of its rows are above their limits.
struct FileRows {
    length: u64,
    rows: Vec<Finding>,
}

// Writes how many bytes of a source its sections have, after what is left of the heading.
fn sum_source<S: Source<Log = ()>, W: Write>(
    alloc: Global,
    source: &S,
    first: Option<usize>,
    limits: &[RowLimit<'_>],
    form: Form<'_>,
    out: &mut Output<W>,
) -> Result<FileRows, Fault> {
    let tables = read(alloc, source, &mut ())?;
    let sums = SectionSums::of_tables(alloc, &tables)?;
    let rows = section_rows(alloc, limits, &sums)?;
    sum_sections(alloc, &sums, first, form, out)?;
    out.end()?;
    let length = sums.file_length();
    Ok(FileRows { length, rows })
}
