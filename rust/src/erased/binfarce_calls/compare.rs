// From crates/binfarce_calls/src/compare.rt, by tools/erase.

//! `binfarce diff [OPTION..] OLD NEW`: how two files differ.

use crate::shim::Vec;
use crate::erased::binfarce_calls::limits::{changed_rows, changed_sections};
use crate::erased::binfarce_bytes::source::Source;
use crate::erased::binfarce_figures::claims::Claims;
use crate::erased::binfarce_figures::diff::{Growth, diff};
use crate::erased::binfarce_figures::sums::Figures;
use crate::erased::binfarce_io::fault::Fault;
use crate::erased::binfarce_io::input::OpenFile;
use crate::erased::binfarce_io::output::Output;
use crate::erased::binfarce_jobs::files::{System, give, give_rows, open_input, refuse};
use crate::erased::binfarce_jobs::hint::lack;
use crate::erased::binfarce_jobs::limit::{Verdict, exceeds, grown};
use crate::erased::binfarce_jobs::show::{Symbols, tables_of};
use crate::erased::binfarce_limits::rows::{Finding, RowLimit};
use crate::erased::binfarce_rows::json::Form;
use crate::erased::binfarce_sections::changes::diff_sections;
use crate::erased::binfarce_sections::sums::SectionSums;
use crate::erased::binfarce_sections::tables::{Tables as SectionTables, read};
use crate::erased::binfarce_tools::tables::Tables;
use crate::erased::binfarce_words::takes::Limit;
use crate::shim::alloc::Global;
use crate::shim::io::{Read, Write};

/// Two files that are compared.
#[derive(Debug, Clone, Copy)]
pub struct Pair<'a> {
    /// The path of the old one.
    pub old: &'a str,
    /// The path of the new one.
    pub new: &'a str,
    /// How rows are written.
    pub form: Form<'a>,
    /// The most that the sum may have grown by.
    pub limit: Option<Limit>,
    /// The most that rows may have grown by.
    pub limits: &'a [RowLimit<'a>],
}

// A file, and the tables that were read of it.
struct ReadFile<F, T> {
    file: OpenFile<F>,
    tables: T,
}

// A file that is summed.
struct Summed<'b, F> {
    file: &'b OpenFile<F>,
    claims: Claims<'b, 'static>,
}

/// What is compared of the function symbols of two files.
#[derive(Debug, Clone, Copy)]
pub struct Sizes<'a> {
    /// Which they are.
    pub symbols: Symbols<'a>,
    /// What their sizes are summed by, and how the sums are shown.
    pub figures: Figures,
}

/// Writes how the sums of the function symbols of two files differ. A file that is refused is reported, the old one
/// first; then nothing is written. Growth above the limit is reported, too.
///
/// # Errors
///
/// `Write` if a write fails, and `OutOfMemory` if an allocation for the text fails.
pub fn compare<F: Read + Source<Log = ()>, Y: System<F>, W: Write>(
    alloc: Global,
    system: &mut Y,
    pair: &Pair<'_>,
    asked: &Sizes<'_>,
    out: &mut Output<W>,
) -> Result<Verdict, Fault> {
    let old = read_at(alloc, system, pair.old, &asked.symbols)?;
    let before = sums_of(alloc, system, pair.old, &old)?;
    let new = read_at(alloc, system, pair.new, &asked.symbols)?;
    let after = sums_of(alloc, system, pair.new, &new)?;
    let is_done = before.is_some() & after.is_some();
    let is_above = write_changes(alloc, system, pair, asked, &before, &after, out)?;
    Ok(Verdict { is_done, is_above })
}

// Writes how the sums of two files differ, if both have them, and gives the hints on these. Returns whether the growth is
// above the limit.
fn write_changes<F: Read + Source<Log = ()>, Y: System<F>, W: Write>(
    alloc: Global,
    system: &mut Y,
    pair: &Pair<'_>,
    asked: &Sizes<'_>,
    before: &Option<Summed<'_, F>>,
    after: &Option<Summed<'_, F>>,
    out: &mut Output<W>,
) -> Result<bool, Fault> {
    let (Some(before), Some(after)) = (before, after) else {
        return Ok(false);
    };
    // No heading precedes the text.
    out.begin(Vec::new(alloc));
    let rows = changed_rows(
        alloc,
        pair.limits,
        &before.claims,
        &after.claims,
        asked.figures.grouping,
    )?;
    let growth = diff(
        alloc,
        &before.claims,
        &after.claims,
        &asked.figures,
        pair.form,
        out,
    )?;
    out.end()?;
    hint_on_none(alloc, system, pair.old, &asked.symbols, before);
    hint_on_none(alloc, system, pair.new, &asked.symbols, after);
    Ok(is_above(system, pair, growth, rows))
}

/// Writes how the bytes of the sections of two files differ, in this number of rows, and reports as `compare` does.
///
/// # Errors
///
/// Those of `compare`.
pub fn compare_sections<F: Read + Source<Log = ()>, Y: System<F>, W: Write>(
    alloc: Global,
    system: &mut Y,
    pair: &Pair<'_>,
    figures: &Figures,
    out: &mut Output<W>,
) -> Result<Verdict, Fault> {
    let old = sections_at(alloc, system, pair.old)?;
    let before = section_sums(alloc, system, pair.old, &old)?;
    let new = sections_at(alloc, system, pair.new)?;
    let after = section_sums(alloc, system, pair.new, &new)?;
    let is_done = before.is_some() & after.is_some();
    let is_above = write_section_changes(alloc, system, pair, figures, &before, &after, out)?;
    Ok(Verdict { is_done, is_above })
}

// Writes how the bytes of two files differ, if both are summed. Returns whether the growth is above the limit.
fn write_section_changes<F: Read + Source<Log = ()>, Y: System<F>, W: Write>(
    alloc: Global,
    system: &mut Y,
    pair: &Pair<'_>,
    figures: &Figures,
    before: &Option<SectionSums<'_>>,
    after: &Option<SectionSums<'_>>,
    out: &mut Output<W>,
) -> Result<bool, Fault> {
    let (Some(before), Some(after)) = (before, after) else {
        return Ok(false);
    };
    let Figures {
        first,
        has_percent,
        ..
    } = *figures;
    // No heading precedes the text.
    out.begin(Vec::new(alloc));
    let rows = changed_sections(alloc, pair.limits, before, after)?;
    diff_sections(alloc, before, after, first, has_percent, pair.form, out)?;
    out.end()?;
    let growth = Growth {
        old: before.file_length(),
        new: after.file_length(),
    };
    Ok(is_above(system, pair, growth, rows))
}

// The file at this path, and its section tables. `None` if it is refused, which is reported.
fn sections_at<F: Read + Source<Log = ()>, Y: System<F>>(
    alloc: Global,
    system: &mut Y,
    path: &str,
) -> Result<Option<ReadFile<F, SectionTables>>, Fault> {
    let Some(file) = open_input(alloc, system, path) else {
        return Ok(None);
    };
    match read(alloc, &file, &mut ()) {
        Ok(tables) => Ok(Some(ReadFile { file, tables })),
        Err(e) => {
            refuse(alloc, system, path, &file, Fault::from(e))?;
            Ok(None)
        }
    }
}

// The bytes of a file by its sections. `None` if it is refused, which is reported, or was before.
fn section_sums<'b, F: Read + Source<Log = ()>, Y: System<F>>(
    alloc: Global,
    system: &mut Y,
    path: &str,
    read: &'b Option<ReadFile<F, SectionTables>>,
) -> Result<Option<SectionSums<'b>>, Fault> {
    let Some(read) = read else {
        return Ok(None);
    };
    match SectionSums::of_tables(alloc, &read.tables) {
        Ok(sums) => Ok(Some(sums)),
        Err(e) => {
            refuse(alloc, system, path, &read.file, Fault::from(e))?;
            Ok(None)
        }
    }
}

// The file at this path, and its tables. `None` if it is refused, which is reported.
fn read_at<F: Read + Source<Log = ()>, Y: System<F>>(
    alloc: Global,
    system: &mut Y,
    path: &str,
    symbols: &Symbols<'_>,
) -> Result<Option<ReadFile<F, Tables<'static>>>, Fault> {
    let Some(file) = open_input(alloc, system, path) else {
        return Ok(None);
    };
    match tables_of(alloc, &file, symbols) {
        Ok(tables) => Ok(Some(ReadFile { file, tables })),
        Err(e) => {
            refuse(alloc, system, path, &file, Fault::from(e))?;
            Ok(None)
        }
    }
}

// What the function symbols of a file add. `None` if it is refused, which is reported, or was before.
fn sums_of<'b, F: Read + Source<Log = ()>, Y: System<F>>(
    alloc: Global,
    system: &mut Y,
    path: &str,
    read: &'b Option<ReadFile<F, Tables<'static>>>,
) -> Result<Option<Summed<'b, F>>, Fault> {
    let Some(read) = read else {
        return Ok(None);
    };
    match Claims::of_tables(alloc, &read.tables) {
        Ok(claims) => Ok(Some(Summed {
            file: &read.file,
            claims,
        })),
        Err(e) => {
            refuse(alloc, system, path, &read.file, Fault::from(e))?;
            Ok(None)
        }
    }
}

// Gives a hint on a file without function symbols.
fn hint_on_none<F: Read + Source<Log = ()>, Y: System<F>>(
    alloc: Global,
    system: &mut Y,
    path: &str,
    symbols: &Symbols<'_>,
    summed: &Summed<'_, F>,
) {
    let is_empty = summed.claims.is_empty();
    let hint = lack(alloc, summed.file, symbols, is_empty).unwrap_or(None);
    give(system, path, hint);
}

// Whether the sum, or that of a row, grew by more than the limit, which is reported.
fn is_above<F: Read + Source<Log = ()>, Y: System<F>>(
    system: &mut Y,
    pair: &Pair<'_>,
    growth: Growth,
    rows: Vec<Finding>,
) -> bool {
    let excess = grown(growth, pair.limit);
    let is_above = exceeds(&excess, &rows);
    give(system, pair.new, excess);
    give_rows(system, pair.new, rows);
    is_above
}
