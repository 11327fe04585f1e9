// From crates/binfarce_tools/src/functions.rt, by tools/erase.

//! The function symbols of a file of any format.

use crate::shim::Vec;
use crate::erased::binfarce_tools::list::ListError;
use crate::erased::binfarce::{
    ByteOrder, Format, FunctionSymbol, ParseError, SectionFunction, SymbolTable, detect_format,
    macho, pe,
};
use crate::erased::binfarce_bytes::functions::Selection;
use crate::erased::binfarce_elf::class::Class;
use crate::erased::binfarce_elf::header::parse_header;
use crate::erased::binfarce_elf::sections::section_table;
use crate::erased::binfarce_elf_memory::selection;
use crate::erased::binfarce_macho::{functions as macho_functions, header as macho_header};
use crate::erased::binfarce_pe::parts::places_after;
use crate::erased::binfarce_pe::{functions as pe_functions, header as pe_header};
use crate::shim::alloc::Global;

/// An iterator over the function symbols of a file, in the order of its listing.
pub struct Functions<'a> {
    /// The function symbols with their sections.
    pub all: AllFunctions<'a>,
}

impl<'a> Iterator for Functions<'a> {
    type Item = FunctionSymbol<'a>;

    fn next(&mut self) -> Option<FunctionSymbol<'a>> {
        Some(self.all.next()?.function)
    }
}

/// An iterator over the function symbols of a selection with their sections, in the order of the listing.
pub enum AllFunctions<'a> {
    Elf(selection::Functions<'a>),
    Arranged(Arranged<'a>),
    Lent(Lent<'a>),
}

/// The function symbols of a list with their sections, from an index on.
pub struct Arranged<'a> {
    functions: Vec<SectionFunction<'a>>,
    next: usize,
}

/// The function symbols of a list that another value owns, from an index on: so tables made once serve several readings.
pub struct Lent<'a> {
    functions: &'a [SectionFunction<'a>],
    next: usize,
}

impl<'a> Iterator for AllFunctions<'a> {
    type Item = SectionFunction<'a>;

    fn next(&mut self) -> Option<SectionFunction<'a>> {
        match self {
            AllFunctions::Elf(functions) => functions.next(),
            AllFunctions::Arranged(functions) => functions.next(),
            AllFunctions::Lent(functions) => functions.next(),
        }
    }
}

impl AllFunctions<'_> {
    /// Whether none is left. At most one is read.
    pub fn is_empty(&self) -> bool {
        match self {
            AllFunctions::Elf(functions) => functions.is_empty(),
            AllFunctions::Arranged(functions) => functions.functions.len() <= functions.next,
            AllFunctions::Lent(functions) => functions.functions.len() <= functions.next,
        }
    }
}

impl<'a> Arranged<'a> {
    // The first of those that are left, which the others follow.
    fn next(&mut self) -> Option<SectionFunction<'a>> {
        let function = *self.functions.get(self.next)?;
        self.next += 1;
        Some(function)
    }
}

impl<'a> Lent<'a> {
    // The first of those that are left, which the others follow.
    fn next(&mut self) -> Option<SectionFunction<'a>> {
        let function = *self.functions.get(self.next)?;
        self.next += 1;
        Some(function)
    }
}

/// The function symbols of a selection.
pub struct Selected<'a> {
    /// The function symbols with their sections, in the order of the listing.
    pub functions: AllFunctions<'a>,
    /// The size of the selected section; `None` for all sections.
    pub size: Option<u64>,
}

impl<'a> Selected<'a> {
    /// The function symbols without their sections, and the section's size: `None` for all sections.
    pub fn into_list(self) -> (Functions<'a>, Option<u64>) {
        let Selected { functions, size } = self;
        (Functions { all: functions }, size)
    }
}

/// The function symbols of a file and the size of their section, with their names as they are stored.
///
/// # Errors
///
/// `Unknown` if the format isn't supported; `Parse` if its reader refuses the file; `OutOfMemory` if an
/// allocation failed.
pub fn functions_of_file<'a>(
    alloc: Global,
    file: &'a [u8],
    section: &str,
) -> Result<(Functions<'a>, u64), ListError> {
    let (functions, size) = section_functions(alloc, file, section)?.into_list();
    Ok((functions, size.unwrap_or(0)))
}

// The function symbols of a section, which is looked for in a whole file, as a selection.
pub(crate) fn section_functions<'a>(
    alloc: Global,
    file: &'a [u8],
    section: &str,
) -> Result<Selected<'a>, ListError> {
    match detect_format(file) {
        Format::Elf32 { byte_order } => Ok(functions_of_elf::<u32>(file, byte_order, section)?),
        Format::Elf64 { byte_order } => Ok(functions_of_elf::<u64>(file, byte_order, section)?),
        Format::Macho => Ok(functions_of_macho(alloc, file, section)?),
        Format::PE => Ok(functions_of_pe(alloc, file, section)?),
        Format::Unknown => Err(ListError::Unknown),
    }
}

// The function symbols that the reader of the file's format gives for a section: of a Mach-O or PE file its
// `functions`, those of the text.
pub(crate) fn readers_functions<'a>(
    alloc: Global,
    file: &'a [u8],
    section: &str,
) -> Result<Selected<'a>, ListError> {
    match detect_format(file) {
        Format::Macho => Ok(text_of_macho(alloc, file)?),
        Format::PE => Ok(text_of_pe(alloc, file)?),
        Format::Elf32 { .. } | Format::Elf64 { .. } | Format::Unknown => {
            section_functions(alloc, file, section)
        }
    }
}

// The function symbols of a section of an ELF file of this class.
fn functions_of_elf<'a, C: Class>(
    file: &'a [u8],
    byte_order: ByteOrder,
    section: &str,
) -> Result<Selected<'a>, ParseError> {
    let header = parse_header::<C>(file, byte_order)?;
    let table = section_table(file, byte_order, &header);
    let functions = selection::section_functions::<C>(table, SymbolTable::Symtab, section)?;
    Ok(of_elf(functions))
}

// The function symbols of a selection of an ELF file.
pub(crate) fn of_elf(functions: selection::Functions<'_>) -> Selected<'_> {
    let size = functions.section_size();
    Selected {
        functions: AllFunctions::Elf(functions),
        size,
    }
}

// The function symbols of a Mach-O file's text.
fn text_of_macho(alloc: Global, file: &[u8]) -> Result<Selected<'_>, ParseError> {
    let header = macho_header::parse_header(file)?;
    let (functions, size) = macho_functions::text_functions(alloc, file, header)?;
    Ok(listed(functions, Some(size)))
}

// The function symbols of a PE file's text.
fn text_of_pe(alloc: Global, file: &[u8]) -> Result<Selected<'_>, ParseError> {
    let (pe_pointer, header) = pe_header::parse_header(file)?;
    let places = places_after(pe_pointer, header);
    let (functions, size) = pe_functions::text_functions(alloc, file, places)?;
    Ok(listed(functions, Some(size)))
}

// The function symbols of a Mach-O file's code section, which answers for every section.
fn functions_of_macho<'a>(
    alloc: Global,
    file: &'a [u8],
    section: &str,
) -> Result<Selected<'a>, ParseError> {
    let selection = Selection::Section(section);
    let (functions, size) = macho::parse(file)?.selected_functions(alloc, selection)?;
    Ok(listed(functions, size))
}

// The function symbols of a PE file's code section, which answers for every section.
fn functions_of_pe<'a>(
    alloc: Global,
    file: &'a [u8],
    section: &str,
) -> Result<Selected<'a>, ParseError> {
    let selection = Selection::Section(section);
    let (functions, size) = pe::parse(file)?.selected_functions(alloc, selection)?;
    Ok(listed(functions, size))
}

// The function symbols of a list, with the size of their section, if one is selected.
pub(crate) fn listed(functions: Vec<SectionFunction<'_>>, size: Option<u64>) -> Selected<'_> {
    Selected {
        functions: AllFunctions::Arranged(Arranged { functions, next: 0 }),
        size,
    }
}

// A list that another value owns, as the function symbols of a section of this size.
pub(crate) fn section_lent<'a>(functions: &'a [SectionFunction<'a>], size: u64) -> Selected<'a> {
    Selected {
        functions: AllFunctions::Lent(Lent { functions, next: 0 }),
        size: Some(size),
    }
}
