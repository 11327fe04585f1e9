// From crates/binfarce_jobs/src/show.rt, by tools/erase.

//! Shows the function symbols of a file: as a listing, as sums, or as a picture.

use crate::shim::{CollectIn, String, Vec};
use crate::erased::binfarce_jobs::code::has_code;
use crate::erased::binfarce_bytes::ParseError;
use crate::erased::binfarce_bytes::format::Format;
use crate::erased::binfarce_bytes::functions::SectionFunction;
use crate::erased::binfarce_bytes::source::Source;
use crate::erased::binfarce_figures::claims::Claims;
use crate::erased::binfarce_figures::diff::sizes_of;
use crate::erased::binfarce_figures::key::Grouping;
use crate::erased::binfarce_figures::map::map_by;
use crate::erased::binfarce_figures::rows::{Shown, list_by};
use crate::erased::binfarce_figures::stacks::fold_claims;
use crate::erased::binfarce_figures::sums::{Figures, Numbers, Sums, sum_by};
use crate::erased::binfarce_io::fault::Fault;
use crate::erased::binfarce_limits::excess::Counted;
use crate::erased::binfarce_limits::rows::{Finding, RowLimit, Rows, judge};
use crate::erased::binfarce_rows::json::Form;
use crate::erased::binfarce_tables::ReadError;
use crate::erased::binfarce_tables::format::read_format;
use crate::erased::binfarce_tables::pe::has_symbols;
use crate::erased::binfarce_tools::SymbolTable;
use crate::erased::binfarce_tools::list::{ListError, Sink, list_selected};
use crate::erased::binfarce_tools::tables::{Selection, Tables, read, read_tables};
use crate::erased::binfarce_words::takes::Limit;
use crate::shim::alloc::{AllocError, Global};
use crate::shim::collections::BTreeMap;

/// How function symbols are shown.
#[derive(Debug, Clone, Copy, PartialEq)]
pub enum Kind {
    /// As a listing.
    Listing,
    /// As a listing in an order, of the first lines, or with other names.
    Rows(Shown),
    /// As sums by a key.
    Figures(Figures),
    /// As a picture of these sums: of the first ones, and of all others in one.
    Picture(Grouping, Option<usize>),
    /// As stacks; whether Rust's standard library is joined.
    Stacks(bool),
}

/// Which function symbols of a file are taken.
#[derive(Debug, Clone, Copy)]
pub struct Symbols<'a> {
    /// The symbol table that they are read by.
    pub which: SymbolTable,
    /// Those of a section, or of all sections.
    pub selection: Selection<'a>,
}

/// What is shown of a file.
#[derive(Debug, Clone, Copy)]
pub struct Request<'a> {
    /// How its function symbols are shown.
    pub kind: Kind,
    /// Which they are.
    pub symbols: Symbols<'a>,
    /// Whether they are shown as JSON objects.
    pub is_json: bool,
    /// The most that a file's sum may be, where sums are shown.
    pub limit: Option<Limit>,
    /// The most that rows of sums may be.
    pub limits: &'a [RowLimit<'a>],
}

/// What was found in a file that was shown.
#[derive(Debug)]
pub struct Seen {
    /// Whether there is none of the function symbols that are taken.
    pub is_empty: bool,
    /// The sum of all sizes, each byte counted once, and that of `[unknown]`, where sums are shown.
    pub sums: Option<Sums>,
    /// Which rows of these sums are above their limits, and which limits have no row.
    pub rows: Vec<Finding>,
}

/// The tables of the source for these function symbols.
///
/// # Errors
///
/// Those of `read`. In a Mach-O or PE file `.text` is the code section, and `SymbolsSectionIsMissing` refuses any other
/// name. A PE file without a symbol table is refused like an ELF file without one, by `SectionIsMissing` of `.symtab`, and
/// a file with code but no function symbol by `SectionIsMissing` of function symbols.
pub fn tables_of<S: Source<Log = ()>>(
    alloc: Global,
    source: &S,
    symbols: &Symbols<'_>,
) -> Result<Tables<'static>, ReadError> {
    let format = read_format(alloc, source, &mut ())?;
    if !is_taken(&format, symbols.selection) {
        return Err(ReadError::Refused(ParseError::SymbolsSectionIsMissing));
    }
    if !has_table(alloc, source, &format, symbols.which)? {
        return Err(ReadError::Refused(ParseError::SectionIsMissing(".symtab")));
    }
    let tables = read_tables(
        alloc,
        source,
        &mut (),
        format,
        symbols.which,
        symbols.selection,
    )?;
    if is_bare(alloc, source, symbols, &tables)? {
        return Err(ReadError::Refused(no_functions(symbols.which)));
    }
    Ok(tables)
}

// Whether the file, of which these are the tables, has code and no function symbol.
fn is_bare<S: Source<Log = ()>>(
    alloc: Global,
    source: &S,
    symbols: &Symbols<'_>,
    tables: &Tables<'_>,
) -> Result<bool, ReadError> {
    if has_functions(alloc, tables)? || has_any(alloc, source, symbols.which)? {
        return Ok(false);
    }
    has_code(alloc, source)
}

// Whether the sections of the file have a function symbol.
fn has_any<S: Source<Log = ()>>(
    alloc: Global,
    source: &S,
    which: SymbolTable,
) -> Result<bool, ReadError> {
    match read(alloc, source, &mut (), which, Selection::All) {
        Ok(tables) => has_functions(alloc, &tables),
        Err(ReadError::Refused(_)) => Ok(false),
        Err(e) => Err(e),
    }
}

/// Whether tables have a function symbol. Those of a Mach-O or PE file aren't sorted for it.
pub(crate) fn has_functions(alloc: Global, tables: &Tables<'_>) -> Result<bool, ReadError> {
    match tables {
        Tables::Macho(parts) => Ok(parts.has_functions()),
        Tables::Pe(parts) => Ok(parts.has_functions()),
        _ => match tables.functions(alloc) {
            Ok(selected) => Ok(!selected.functions.is_empty()),
            Err(ListError::OutOfMemory) => Err(ReadError::OutOfMemory),
            Err(_) => Ok(false),
        },
    }
}

// The refusal of a file with code that has no function symbol by this symbol table.
fn no_functions(which: SymbolTable) -> ParseError {
    match which {
        SymbolTable::Symtab => ParseError::SectionIsMissing("function symbols"),
        SymbolTable::Dynsym => ParseError::SectionIsMissing("function symbols in .dynsym"),
    }
}

// Whether the file has this symbol table: a PE file may have none. That of another file is found when its tables are
// read.
fn has_table<S: Source<Log = ()>>(
    alloc: Global,
    source: &S,
    format: &Format,
    which: SymbolTable,
) -> Result<bool, ReadError> {
    match (format, which) {
        (Format::PE, SymbolTable::Symtab) => has_symbols(alloc, source, &mut ()),
        _ => Ok(true),
    }
}

// Whether a file of this format has what is selected: a Mach-O or PE file has the section `.text` alone.
fn is_taken(format: &Format, selection: Selection<'_>) -> bool {
    match selection {
        Selection::Section(name) => match format {
            Format::Macho | Format::PE => name == ".text",
            _ => true,
        },
        Selection::All => true,
    }
}

// The form in which the file at this path is shown.
fn form_for<'a>(asked: &Request<'a>, path: &'a str) -> Form<'a> {
    match asked.symbols.selection {
        _ if !asked.is_json => Form::Lines,
        Selection::Section(section) => Form::Objects(path, section),
        Selection::All => Form::Objects(path, ""),
    }
}

/// Writes the requested function symbols of the source, and returns what was found; a picture's title is the path. Of
/// the source it reads the headers, the symbol table and the names alone.
///
/// # Errors
///
/// `Unreadable` if a read fails; `Unknown`, `Parse`, `OutOfMemory` and `Write` as in `list`, `TooLarge` as in
/// `sum_by`. Only after `Write` a beginning may be written.
pub fn show<S: Source<Log = ()>, K: Sink>(
    alloc: Global,
    asked: &Request<'_>,
    path: &str,
    source: &S,
    out: &mut K,
) -> Result<Seen, Fault> {
    let tables = tables_of(alloc, source, &asked.symbols)?;
    let form = form_for(asked, path);
    match asked.symbols.selection {
        Selection::Section(_) => {
            show_section(alloc, asked.kind, asked.limits, path, form, &tables, out)
        }
        Selection::All => show_tables(alloc, asked.kind, asked.limits, path, form, &tables, out),
    }
}

// Shows the function symbols of a section, which are made once.
fn show_section<K: Sink>(
    alloc: Global,
    kind: Kind,
    limits: &[RowLimit<'_>],
    path: &str,
    form: Form<'_>,
    tables: &Tables<'_>,
    out: &mut K,
) -> Result<Seen, Fault> {
    let (functions, size) = tables.functions(alloc)?.into_list();
    let list: Vec<SectionFunction<'_>> = functions.all.collect_in(alloc)?;
    let made = Tables::Made {
        functions: list,
        size: size.unwrap_or(0),
        versions: tables.version_names(),
    };
    show_tables(alloc, kind, limits, path, form, &made, out)
}

// Shows the function symbols of these tables.
fn show_tables<K: Sink>(
    alloc: Global,
    kind: Kind,
    limits: &[RowLimit<'_>],
    path: &str,
    form: Form<'_>,
    tables: &Tables<'_>,
    out: &mut K,
) -> Result<Seen, Fault> {
    match kind {
        Kind::Listing => {
            let selected = tables.functions(alloc)?;
            let is_empty = selected.functions.is_empty();
            list_selected(alloc, tables, selected, out)?;
            Ok(Seen {
                is_empty,
                sums: None,
                rows: Vec::new(alloc),
            })
        }
        Kind::Rows(shown) => {
            let found = list_by(alloc, tables, &shown, form, out)?;
            Ok(Seen {
                is_empty: found == 0,
                sums: None,
                rows: Vec::new(alloc),
            })
        }
        Kind::Figures(figures) => {
            let claims = Claims::of_tables(alloc, tables)?;
            let rows = rows_of(alloc, limits, &claims, figures.grouping)?;
            let sums = sum_by(alloc, &claims, &figures, form, out)?;
            Ok(Seen {
                is_empty: claims.is_empty(),
                sums: Some(sums),
                rows,
            })
        }
        Kind::Picture(grouping, first) => {
            let claims = Claims::of_tables(alloc, tables)?;
            map_by(alloc, path, &claims, grouping, first, out)?;
            Ok(Seen {
                is_empty: claims.is_empty(),
                sums: None,
                rows: Vec::new(alloc),
            })
        }
        Kind::Stacks(joins_std) => {
            let claims = Claims::of_tables(alloc, tables)?;
            fold_claims(alloc, &claims, joins_std, out)?;
            Ok(Seen {
                is_empty: claims.is_empty(),
                sums: None,
                rows: Vec::new(alloc),
            })
        }
    }
}

// Which of these rows are above their limits, and which limits have no row.
fn rows_of(
    alloc: Global,
    limits: &[RowLimit<'_>],
    claims: &Claims<'_, '_>,
    grouping: Grouping,
) -> Result<Vec<Finding>, AllocError> {
    if limits.is_empty() {
        return Ok(Vec::new(alloc));
    }
    let numbers = sizes_of(alloc, None, claims, grouping)?;
    judge(alloc, limits, &SumRows(&numbers))
}

// The rows of sums.
#[derive(Clone, Copy)]
struct SumRows<'a>(&'a BTreeMap<String, Numbers>);

impl Rows for SumRows<'_> {
    fn counted(&self, name: &str) -> Option<Counted> {
        match self.0.get(name) {
            Some(numbers) => Some(Counted::Size(numbers.other)),
            None => None,
        }
    }
}
