// From crates/binfarce_elf_memory/src/selection.rt, by tools/erase.

//! The function symbols of a selection: of one section, or of all sections with their addresses and sizes in memory.

use crate::shim::{Vec, to_usize};
use crate::erased::binfarce_elf_memory::descriptors::placed_rows;
use crate::erased::binfarce_elf_memory::ends::{
    FileKind, address_of, is_function_kind, keys_of, row_size,
};
use crate::erased::binfarce_elf_memory::versions::{row_versions, version_at};
use crate::erased::binfarce_bytes::functions::{
    FunctionSymbol, SectionFunction, Selection, found_with,
};
use crate::erased::binfarce_bytes::parser::{UnexpectedEof, parse_null_string};
use crate::erased::binfarce_bytes::{ByteOrder, ParseError};
use crate::erased::binfarce_elf::class::{Class, Half, SymbolRow, Width, row_at};
use crate::erased::binfarce_elf::sections::{Table, index_of, names_bytes, section_named};
use crate::erased::binfarce_elf::symbol_table::SymbolTable;
use crate::erased::binfarce_elf::symbols::{Rows, TableSections, rows_at, table_sections};
use crate::shim::alloc::{AllocError, Global};

// The index of no section, and the first of the reserved indices.
const SHN_UNDEF: Half = 0;

const SHN_LORESERVE: Half = 0xff00;

/// What a selection takes of a symbol table.
#[derive(Clone, Copy)]
pub enum Taken {
    /// The functions of the section of this index, as the file stores them; the section's size, and whether indirect
    /// functions (`STT_GNU_IFUNC`) count.
    Section {
        index: Half,
        size: u64,
        indirect: bool,
    },
    /// Those of all sections, of which there are so many, in memory.
    All {
        count: Half,
    },
}

impl Taken {
    /// The size of the one section; `None` for all sections.
    pub fn size(self) -> Option<u64> {
        match self {
            Taken::Section { size, .. } => Some(size),
            Taken::All { .. } => None,
        }
    }
}

/// What a selection takes of a symbol table, and the sections of the table and its strings.
#[derive(Clone, Copy)]
pub struct Needed {
    pub taken: Taken,
    pub table: TableSections,
}

/// The function symbols of the section with this name, by this symbol table. Nothing is allocated.
pub fn section_functions<'a, C: Class>(
    table: Table<'a>,
    which: SymbolTable,
    name: &str,
) -> Result<Functions<'a>, ParseError> {
    let selection = Selection::Section(name);
    let needed = needed_of::<C>(table, names_bytes::<C>(table), which, selection)?;
    let Rows { strings, rows } = rows_at(table.data, C::width(), needed.table)?;
    Ok(functions_in(
        rows,
        strings,
        row_versions::<C>(table, which),
        C::width(),
        table.byte_order,
        needed.taken,
        false,
        &[],
    ))
}

/// The function symbols of all sections of a file of this kind, by this symbol table: a list in table order. Every
/// refusal comes before the first allocation.
pub fn all_functions<'a, C: Class>(
    alloc: Global,
    table: Table<'a>,
    kind: FileKind,
    which: SymbolTable,
) -> Result<Vec<SectionFunction<'a>>, ParseError> {
    let names = names_bytes::<C>(table);
    let needed = needed_of::<C>(table, names, which, Selection::All)?;
    let found = rows_at(table.data, C::width(), needed.table)?;
    let placed = placed_rows(
        alloc,
        table,
        names,
        C::width(),
        kind,
        needed.taken,
        found.rows,
    )?;
    let rows = rows_or(found.rows, &placed);
    let functions = functions_of::<C>(
        alloc,
        table,
        kind,
        which,
        needed.taken,
        found.strings,
        rows,
    )?;
    Ok(functions)
}

// These rows, unless there are others.
fn rows_or<'a>(rows: &'a [u8], others: &'a Option<Vec<u8>>) -> &'a [u8] {
    match others {
        None => rows,
        Some(others) => others.as_slice(),
    }
}

// The function symbols that a selection takes of these rows.
fn functions_of<'a, C: Class>(
    alloc: Global,
    table: Table<'_>,
    kind: FileKind,
    which: SymbolTable,
    taken: Taken,
    strings: &'a [u8],
    rows: &[u8],
) -> Result<Vec<SectionFunction<'a>>, AllocError> {
    let has_modes = kind.has_modes();
    let keys = keys_of::<C>(alloc, table, kind, Rows { strings, rows })?;
    let functions = list_in(
        alloc,
        &keys,
        C::width(),
        table.byte_order,
        has_modes,
        taken,
        strings,
        rows,
        row_versions::<C>(table, which),
    )?;
    Ok(functions)
}

// The function symbols that a selection takes of these rows with their versions, by the keys of the ends of their
// sections.
fn list_in<'a>(
    alloc: Global,
    keys: &[u128],
    width: Width,
    byte_order: ByteOrder,
    has_modes: bool,
    taken: Taken,
    strings: &'a [u8],
    rows: &[u8],
    versions: &[u8],
) -> Result<Vec<SectionFunction<'a>>, AllocError> {
    let length = width.symbol_length();
    let mut functions = Vec::new(alloc);
    for k in 0..rows.len() / length {
        let row = row_at(width, rows, k * length, byte_order).unwrap();
        let version = version_at(versions, k, byte_order);
        let size = row_size(keys, has_modes, row);
        match function_of(strings, taken, has_modes, row, version, size) {
            None => {}
            Some(function) => functions.push(function)?,
        }
    }
    Ok(functions)
}

/// The function symbols that a selection takes of the rows of a symbol table of this class, whose names are in these
/// strings, and whose versions these are. For all sections, `sizes` has the sizes of all rows in memory, and `has_modes`
/// says whether bit 0 of a function's value is its instruction set.
pub fn functions_in<'a>(
    rows: &'a [u8],
    strings: &'a [u8],
    versions: &'a [u8],
    width: Width,
    byte_order: ByteOrder,
    taken: Taken,
    has_modes: bool,
    sizes: &'a [u64],
) -> Functions<'a> {
    Functions {
        rows,
        strings,
        versions,
        width,
        byte_order,
        taken,
        has_modes,
        sizes,
        next: 0,
    }
}

// A selection and the sections that its symbols need; `names` holds the section names.
pub(crate) fn needed_of<C: Class>(
    table: Table<'_>,
    names: Option<&[u8]>,
    which: SymbolTable,
    selection: Selection<'_>,
) -> Result<Needed, ParseError> {
    let taken = match selection {
        Selection::Section(name) => {
            let Some(section) = section_named::<C>(table, names, name)? else {
                return Err(ParseError::SymbolsSectionIsMissing);
            };
            Taken::Section {
                index: index_of(section),
                size: section.size().widened(),
                indirect: matches!(which, SymbolTable::Dynsym),
            }
        }
        Selection::All => {
            whole_sections::<C>(table)?;
            Taken::All { count: table.shnum }
        }
    };
    let sections = table_sections::<C>(table, which)?;
    Ok(Needed {
        taken,
        table: sections,
    })
}

// Refused if a section header is truncated.
fn whole_sections<C: Class>(table: Table<'_>) -> Result<(), UnexpectedEof> {
    let room = table.data.len().saturating_sub(table.shoff) / C::SECTION_LENGTH;
    if table.shoff < table.data.len() && usize::from(table.shnum) <= room {
        Ok(())
    } else {
        Err(UnexpectedEof {})
    }
}

/// An iterator over the function symbols of a selection, each with the index of its section, in the order of the symbol
/// table.
///
/// Rows are read on demand, and names stay in the file: nothing is allocated or copied.
#[must_use = "iterators are lazy and do nothing unless consumed"]
#[derive(Clone)]
pub struct Functions<'a> {
    rows: &'a [u8],
    strings: &'a [u8],
    versions: &'a [u8],
    width: Width,
    byte_order: ByteOrder,
    taken: Taken,
    has_modes: bool,
    sizes: &'a [u64],
    next: usize,
}

impl<'a> Functions<'a> {
    /// The size of the selected section in bytes (`sh_size`); `None` for all sections.
    pub fn section_size(&self) -> Option<u64> {
        self.taken.size()
    }

    /// Whether none is left. Rows are read up to the first one that is a function's.
    pub fn is_empty(&self) -> bool {
        self.first_left().is_none()
    }

    /// The function symbol that an address symbolizes to, among those that are left: of those whose range holds it the
    /// one of greatest address, and of several the first. `None` if no range holds it.
    ///
    /// A range begins at the symbol's address (`st_value`) and has its size in bytes. Each row that is left is read
    /// once; nothing is allocated or copied.
    pub fn symbol_at(self, address: u64) -> Option<FunctionSymbol<'a>> {
        let mut found = None;
        for function in self {
            found = found_with(found, function.function, address);
        }
        found
    }

    // The first function that is left, and the number of the row after it.
    #[cfg_attr(not(debug_assertions), inline(always))]
    fn first_left(&self) -> Option<(SectionFunction<'a>, usize)> {
        match self.width {
            Width::Bits32 => self.first_of(Width::Bits32),
            Width::Bits64 => self.first_of(Width::Bits64),
        }
    }

    // So by this class, whose size of a row the compiler knows.
    #[cfg_attr(not(debug_assertions), inline(always))]
    fn first_of(&self, width: Width) -> Option<(SectionFunction<'a>, usize)> {
        let length = width.symbol_length();
        for k in self.next..self.rows.len() / length {
            let row = row_at(width, self.rows, k * length, self.byte_order).unwrap();
            let version = version_at(self.versions, k, self.byte_order);
            let size = self.sizes.get(k).copied().unwrap_or(0);
            match function_of(self.strings, self.taken, self.has_modes, row, version, size) {
                None => continue,
                Some(function) => return Some((function, k + 1)),
            }
        }
        None
    }
}

impl<'a> Iterator for Functions<'a> {
    type Item = SectionFunction<'a>;

    #[cfg_attr(not(debug_assertions), inline(always))]
    fn next(&mut self) -> Option<SectionFunction<'a>> {
        let (function, next) = self.first_left()?;
        self.next = next;
        Some(function)
    }
}

// The function of a row of this version, and of this size in memory, with its section, where it is taken.
#[cfg_attr(not(debug_assertions), inline(always))]
fn function_of(
    strings: &[u8],
    taken: Taken,
    has_modes: bool,
    row: SymbolRow,
    version: Half,
    size: u64,
) -> Option<SectionFunction<'_>> {
    if !is_taken(taken, row) || row.name == 0 {
        return None;
    }
    let name = parse_null_string(strings, to_usize(row.name))?;
    let (address, size) = match taken {
        Taken::Section { .. } => (row.value, row.size),
        Taken::All { .. } => (address_of(has_modes, row), size),
    };
    Some(SectionFunction {
        section: u32::from(row.section),
        info: row.info,
        version,
        function: FunctionSymbol {
            name,
            address,
            size,
        },
    })
}

// Whether a row is of a function that is taken.
#[cfg_attr(not(debug_assertions), inline(always))]
fn is_taken(taken: Taken, row: SymbolRow) -> bool {
    match taken {
        Taken::Section {
            index,
            indirect,
            ..
        } => row.section == index && row.size != 0 && is_function_kind(indirect, row),
        Taken::All { count } => { is_of_section(count, row.section) && is_function_kind(true, row) }
    }
}

// Whether this is the index of one of so many sections.
#[cfg_attr(not(debug_assertions), inline(always))]
fn is_of_section(count: Half, index: Half) -> bool {
    SHN_UNDEF < index && index < SHN_LORESERVE && index < count
}
