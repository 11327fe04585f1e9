// From crates/binfarce/src/macho.rt, by tools/erase.

//! 64-bit Mach-O files, which are little endian (Apple's `<mach-o/loader.h>` and `<mach-o/nlist.h>`).

use crate::shim::Vec;
use crate::erased::binfarce::symbols::{symbols_of_list, without_sections};
use crate::erased::binfarce_bytes::ParseError;
use crate::erased::binfarce_bytes::functions::{FunctionSymbol, SectionFunction, Selection};
use crate::erased::binfarce_macho::functions::{functions_of_file, text_functions};
pub use crate::erased::binfarce_macho::header::MachoHeader;
use crate::erased::binfarce_macho::header::parse_header;
use crate::erased::binfarce_macho::sections;
pub use crate::erased::binfarce_macho::sections::{Section, Sections};
use crate::erased::binfarce_names::demangle::SymbolData;
use crate::shim::alloc::Global;

/// A Mach-O file. It borrows the file's bytes.
#[derive(Debug, Clone)]
pub struct Macho<'a> {
    data: &'a [u8],
    header: MachoHeader,
}

/// Reads the header of a Mach-O file. The magic number isn't checked. Nothing is copied.
///
/// # Errors
///
/// `UnexpectedEof` for fewer than 28 bytes.
pub fn parse(file: &[u8]) -> Result<Macho<'_>, ParseError> {
    let header = parse_header(file)?;
    Ok(Macho { data: file, header })
}

impl<'a> Macho<'a> {
    /// The file's bytes, as given to `parse`.
    pub fn data(&self) -> &'a [u8] {
        self.data
    }

    /// The file header, as it was read by `parse`.
    pub fn header(&self) -> MachoHeader {
        self.header
    }

    /// The sections in file order, segment by segment, as `find_section` searches them. Each is read on demand.
    ///
    /// An error is the last item where `find_section` with a callback that always answers false returns that error.
    pub fn sections(&self) -> Sections<'a> {
        sections::sections_of(self.data, self.header)
    }

    /// The section's bytes, a slice of the file.
    ///
    /// # Errors
    ///
    /// `MalformedInput` if their end exceeds `usize`, `UnexpectedEof` if it lies past the file.
    pub fn section_bytes(&self, section: &Section<'_>) -> Result<&'a [u8], ParseError> {
        sections::section_data(self.data, section)
    }

    /// The first section that the callback accepts, in file order; `None` if it accepts none.
    ///
    /// The sections are those of the segment commands (`LC_SEGMENT_64`) whose segment and section name are both valid.
    /// A name is stored in 16 bytes: it is those up to the first NUL, or all 16 without a NUL. It is valid if it is
    /// UTF-8 and not empty. The section borrows from the file and may outlive the reader.
    ///
    /// # Errors
    ///
    /// `UnexpectedEof` if a segment command or a section is truncated, `MalformedInput` if a load command's size
    /// is below 8. The callback gets the sections before it first.
    pub fn find_section<F: Fn(Section<'_>) -> bool>(
        &self,
        callback: F,
    ) -> Result<Option<Section<'a>>, ParseError> {
        sections::find_section(self.data, self.header, callback)
    }

    /// The first section with these two names.
    ///
    /// # Errors
    ///
    /// Those of `find_section`.
    pub fn section_with_name(
        &self,
        segment_name: &str,
        section_name: &str,
    ) -> Result<Option<Section<'a>>, ParseError> {
        sections::section_with_name(self.data, self.header, segment_name, section_name)
    }

    /// The function symbols of the first section, in the order of their addresses, and the text's size in bytes.
    ///
    /// A symbol's size is the distance to the next greater address in the whole table, or to the text's end where
    /// there is none. It keeps rows with a value, a name offset, one of the type bits 0x0A and section 1, if they have
    /// a size and a valid name. Rows of one address keep their table order. Without a symbol table the answer is an
    /// empty list and 0.
    ///
    /// # Errors
    ///
    /// In this order: those of `find_section`; `SymbolsSectionIsMissing` without a section `__text` of `__TEXT`;
    /// `MalformedInput` if that is empty, or for a bad load command before the symbol table's; `UnexpectedEof` if
    /// that command, the string table or the rows are truncated; `MalformedInput` if the text's end exceeds 64 bits,
    /// or a row that would be kept lies past that end with no address above it. `OutOfMemory` only if the table has
    /// a value that isn't 0; it may replace the last error.
    pub fn symbols(&self, alloc: Global) -> Result<(Vec<SymbolData>, u64), ParseError> {
        let (functions, text_size) = self.functions(alloc)?;
        let symbols = symbols_of_list(alloc, &functions)?;
        Ok((symbols, text_size))
    }

    /// The function symbols of `symbols`, in its order, with their names as the file stores them.
    ///
    /// The names are slices of the file and may outlive the reader.
    ///
    /// # Errors
    ///
    /// Those of `symbols`.
    pub fn functions(&self, alloc: Global) -> Result<(Vec<FunctionSymbol<'a>>, u64), ParseError> {
        let (functions, size) = text_functions(alloc, self.data, self.header)?;
        Ok((without_sections(alloc, &functions)?, size))
    }

    /// The function symbols of all sections that hold instructions, each with its section's number: by section, and in
    /// each by address and at equal addresses in table order. Without a symbol table the list is empty.
    ///
    /// A section holds instructions if its flags have `S_ATTR_PURE_INSTRUCTIONS` or `S_ATTR_SOME_INSTRUCTIONS`; one
    /// whose flags are truncated holds none. Sections are numbered from 1 on, segment by segment, also those whose
    /// names aren't valid; a row's section number is at most 255. It keeps rows that are defined in such a section
    /// (`N_SECT`, and no bit of `N_STAB`) with a value in it, a name offset and a valid name, unless that is a label of
    /// the assembler: one that begins with `ltmp` or `L`. A symbol's size is the distance to the next greater address
    /// of such a row of its section, or to the section's end if there is none.
    ///
    /// # Errors
    ///
    /// In this order: those of `find_section` with a callback that accepts no section; `UnexpectedEof` if the symbol
    /// table's command, the string table or the rows are truncated. `OutOfMemory` only if the file has a section; it
    /// may replace another error.
    pub fn all_functions(&self, alloc: Global) -> Result<Vec<SectionFunction<'a>>, ParseError> {
        let (functions, _) = self.selected_functions(alloc, Selection::All)?;
        Ok(functions)
    }

    /// The function symbols of `all_functions`; by a name, whichever it is, those of the code section alone, with its
    /// size in bytes.
    ///
    /// The code section is the first of the first 255 sections that is named `__TEXT,__text`. Unlike `functions`, which
    /// answers as the original crate does, an object's functions at address 0 are among them, and no size reaches past
    /// the section's end.
    ///
    /// # Errors
    ///
    /// Those of `all_functions`, and after those of its sections `SymbolsSectionIsMissing`; `OutOfMemory` as it says.
    pub fn selected_functions(
        &self,
        alloc: Global,
        selection: Selection<'_>,
    ) -> Result<(Vec<SectionFunction<'a>>, Option<u64>), ParseError> {
        functions_of_file(alloc, self.data, self.header, selection)
    }
}
