//! PE files with a COFF symbol table, which are little endian.
//!
//! # Examples
//!
//! ```
//! use binfarce::{ParseError, pe};
//!
//! /// The first 8 bytes of each section's name.
//! fn names(file: &[u8]) -> Result<Vec<&str>, ParseError> {
//!     pe::parse(file)?.sections().map(|section| Ok(section?.name())).collect()
//! }
//! # assert!(matches!(names(b""), Err(ParseError::UnexpectedEof)));
//! ```

use crate::any::Bounded;
use crate::demangle::SymbolData;
use crate::erased::binfarce::pe as erased;
use crate::error::{Error, ParseError, out_of_memory};
use crate::shim::alloc::Global;
use crate::{FunctionSymbol, SectionFunction, number_in, symbols_of};
use alloc::vec::Vec;
use core::fmt;
use core::ops::Range;

/// The COFF file header.
#[derive(Debug, Clone, Copy, PartialEq, Eq, Hash)]
pub struct PeHeader {
    /// The architecture (`Machine`): 0x14c i386, 0x8664 x86-64, 0xaa64 ARM64.
    pub machine: u16,
    /// The number of sections (`NumberOfSections`).
    pub number_of_sections: u16,
    /// When the file was made, in seconds since 1970, or a hash (`TimeDateStamp`).
    pub time_date_stamp: u32,
    /// The offset of the symbol table in bytes, or 0 (`PointerToSymbolTable`).
    pub pointer_to_symbol_table: u32,
    /// The number of rows of the symbol table, auxiliary ones among them (`NumberOfSymbols`).
    pub number_of_symbols: u32,
    /// The size of the optional header in bytes (`SizeOfOptionalHeader`), which is 0 in an object.
    pub size_of_optional_header: u16,
    /// Flags (`Characteristics`).
    pub characteristics: u16,
}

/// A section. Its name is a part of the file.
#[derive(Clone, Copy)]
pub struct Section<'a>(erased::Section<'a>);

impl<'a> Section<'a> {
    /// Returns the section's bytes as a range of the file (`PointerToRawData`, `SizeOfRawData`), which may end past the
    /// file.
    ///
    /// # Errors
    ///
    /// [`ParseError::MalformedInput`] where the range's end passes a `usize`: not on 64-bit machines.
    pub fn range(&self) -> Result<Range<usize>, ParseError> {
        Ok(self.0.range()?)
    }

    /// Returns the name in the section's header: `/` and an offset in the string table for a name of more than 8 bytes.
    #[must_use]
    pub fn name(&self) -> &'a str {
        self.0.name()
    }

    /// Returns the address of the section's first byte in memory, counted from the image base (`VirtualAddress`).
    #[must_use]
    pub fn address(&self) -> u32 {
        self.0.address()
    }

    /// Returns the section's size in memory in bytes (`VirtualSize`).
    #[must_use]
    pub fn virtual_size(&self) -> u32 {
        self.0.virtual_size()
    }

    /// Returns the offset of the section's first byte in the file, or 0 if it has no bytes there (`PointerToRawData`).
    #[must_use]
    pub fn offset(&self) -> u32 {
        self.0.offset()
    }

    /// Returns how many bytes the section has in the file (`SizeOfRawData`).
    #[must_use]
    pub fn size(&self) -> u32 {
        self.0.size()
    }

    /// Returns the section's flags (`Characteristics`). 0 if the file ends before them.
    #[must_use]
    pub fn characteristics(&self) -> u32 {
        self.0.characteristics()
    }

    /// Returns how many bytes of the file are the section's: `SizeOfRawData`, but 0 if `PointerToRawData` is 0.
    #[must_use]
    pub fn file_size(&self) -> u32 {
        self.0.file_size()
    }

    /// Returns how many bytes the section has in memory: `VirtualSize`, or `SizeOfRawData` if that is 0, as in an object
    /// file.
    #[must_use]
    pub fn memory_size(&self) -> u32 {
        self.0.memory_size()
    }

    /// Returns the index of the section's header in the section table, which counts from 0. The section's number in
    /// [`SectionFunction`] is greater by 1.
    #[must_use]
    pub fn index(&self) -> u16 {
        self.0.index
    }
}

of_values! {
    Section<'_>: |it| (
        (it.0.index, it.0.name, it.0.virtual_address, it.0.virtual_size),
        (it.0.pointer_to_raw_data, it.0.size_of_raw_data, it.0.characteristics),
    );
}

impl fmt::Debug for Section<'_> {
    fn fmt(&self, f: &mut fmt::Formatter<'_>) -> fmt::Result {
        f.debug_struct("Section")
            .field("name", &self.0.name)
            .field("virtual_size", &self.0.virtual_size)
            .field("size_of_raw_data", &self.0.size_of_raw_data)
            .field("pointer_to_raw_data", &self.0.pointer_to_raw_data)
            .field("index", &self.0.index)
            .finish()
    }
}

/// A PE file. It borrows the file's bytes.
#[derive(Clone)]
pub struct Pe<'a>(erased::Pe<'a>);

impl fmt::Debug for Pe<'_> {
    fn fmt(&self, f: &mut fmt::Formatter<'_>) -> fmt::Result {
        self.0.fmt(f)
    }
}

/// Reads the file header. Its signature isn't checked: [`detect_format`](crate::detect_format) checks the file's first
/// bytes.
///
/// # Errors
///
/// [`ParseError::UnexpectedEof`] for fewer than 64 bytes, and where the file header is truncated.
///
/// # Examples
///
/// ```
/// use binfarce::pe;
///
/// # let path = concat!(env!("CARGO_MANIFEST_DIR"), "/samples/pe-image.bin");
/// let file = std::fs::read(path)?;
/// let file = pe::parse(&file)?;
/// assert_eq!(file.header().machine, 0x8664);
/// assert!(pe::parse(b"MZ").is_err());
/// # Ok::<(), Box<dyn std::error::Error>>(())
/// ```
pub fn parse(data: &[u8]) -> Result<Pe<'_>, ParseError> {
    Ok(Pe(erased::parse(data)?))
}

impl<'a> Pe<'a> {
    /// Returns the file header.
    #[must_use]
    pub fn header(&self) -> PeHeader {
        let file = self.0.data();
        // `e_lfanew` of the stub; the signature has 4 bytes.
        let start = number_in::<u32>(file, 60) as usize + 4;
        PeHeader {
            machine: number_in(file, start),
            number_of_sections: number_in(file, start + 2),
            time_date_stamp: number_in(file, start + 4),
            pointer_to_symbol_table: number_in(file, start + 8),
            number_of_symbols: number_in(file, start + 12),
            size_of_optional_header: number_in(file, start + 16),
            characteristics: number_in(file, start + 18),
        }
    }

    /// Returns an iterator over the sections in file order. A section header is read when the iterator reaches it.
    /// Sections whose names aren't UTF-8 are skipped.
    ///
    /// # Examples
    ///
    /// ```
    /// use binfarce::pe;
    ///
    /// # let path = concat!(env!("CARGO_MANIFEST_DIR"), "/samples/pe-image.bin");
    /// let file = std::fs::read(path)?;
    /// let sections = pe::parse(&file)?.sections().collect::<Result<Vec<_>, _>>()?;
    /// assert_eq!((sections[0].name(), sections[0].address()), (".text", 0x1000));
    /// # Ok::<(), Box<dyn std::error::Error>>(())
    /// ```
    pub fn sections(&self) -> Sections<'a> {
        // One for each header, or an error in place of one that is missing.
        Sections(Bounded::new(self.0.sections(), usize::from(self.header().number_of_sections) + 1))
    }

    /// Returns the first section that `callback` accepts, in file order.
    ///
    /// # Errors
    ///
    /// [`ParseError::UnexpectedEof`] where the section table doesn't begin in the file, or a header is truncated.
    /// `callback` gets the sections before it first.
    ///
    /// # Examples
    ///
    /// ```
    /// use binfarce::pe;
    ///
    /// # let path = concat!(env!("CARGO_MANIFEST_DIR"), "/samples/pe-image.bin");
    /// let file = std::fs::read(path)?;
    /// let at = pe::parse(&file)?.find_section(|section| section.address() == 0x1000)?;
    /// assert_eq!(at.map(|section| section.name()), Some(".text"));
    /// # Ok::<(), Box<dyn std::error::Error>>(())
    /// ```
    pub fn find_section<F: Fn(Section<'_>) -> bool>(&self, callback: F) -> Result<Option<Section<'a>>, ParseError> {
        Ok(self.0.find_section(|section| callback(Section(section)))?.map(Section))
    }

    /// Returns the first section with this name.
    ///
    /// # Errors
    ///
    /// Those of [`Pe::find_section`].
    ///
    /// # Examples
    ///
    /// ```
    /// use binfarce::pe;
    ///
    /// # let path = concat!(env!("CARGO_MANIFEST_DIR"), "/samples/pe-image.bin");
    /// let file = std::fs::read(path)?;
    /// let text = pe::parse(&file)?.section_with_name(".text")?;
    /// assert_eq!(text.map(|section| (section.virtual_size(), section.size())), Some((24, 512)));
    /// # Ok::<(), Box<dyn std::error::Error>>(())
    /// ```
    pub fn section_with_name(&self, name: &str) -> Result<Option<Section<'a>>, ParseError> {
        Ok(self.0.section_with_name(name)?.map(Section))
    }

    /// Returns the section's bytes in the file, `SizeOfRawData` of them. [`section_bytes`](crate::section_bytes) ends them at the
    /// section's size in memory.
    ///
    /// # Errors
    ///
    /// [`Error::NoBytes`] where `PointerToRawData` or `SizeOfRawData` is 0; [`Error::PastEnd`] where its bytes end past the file.
    ///
    /// # Examples
    ///
    /// ```
    /// use binfarce::{Error, pe};
    ///
    /// # let path = concat!(env!("CARGO_MANIFEST_DIR"), "/samples/pe-image.bin");
    /// let file = std::fs::read(path)?;
    /// let program = pe::parse(&file)?;
    /// let text = program.section_with_name(".text")?.ok_or("no text section")?;
    /// // The pointer of this small file's section is 0.
    /// assert_eq!(text.range()?, 0..512);
    /// assert_eq!(program.section_bytes(&text), Err(Error::NoBytes));
    /// # Ok::<(), Box<dyn std::error::Error>>(())
    /// ```
    pub fn section_bytes(&self, section: &Section<'_>) -> Result<&'a [u8], Error> {
        if section.offset() == 0 || section.size() == 0 {
            return Err(Error::NoBytes);
        }
        self.0.section_bytes(&section.0).map_err(|_| Error::PastEnd)
    }

    /// Returns the function symbols of the section `.text` with readable names, by address, and the section's size in
    /// bytes. Static functions are left out; [`Pe::all_functions`] has them.
    ///
    /// A symbol's size is the distance to the next greater one of the symbols' addresses and the section's end, or 0 if
    /// none is greater. Where an allocation fails, the program ends as it does where a `Vec` can't grow;
    /// [`Pe::try_symbols`] returns an error there.
    ///
    /// # Errors
    ///
    /// Those of [`Pe::find_section`]; [`ParseError::SymbolsSectionIsMissing`] without a section `.text`;
    /// [`ParseError::UnexpectedEof`] where the symbol table doesn't begin in the file or passes its end.
    ///
    /// # Examples
    ///
    /// ```
    /// use binfarce::pe;
    ///
    /// # let path = concat!(env!("CARGO_MANIFEST_DIR"), "/samples/pe.bin");
    /// let file = std::fs::read(path)?;
    /// let (symbols, text_size) = pe::parse(&file)?.symbols()?;
    /// assert_eq!((symbols[2].name.trimmed.as_str(), symbols[2].address, text_size), ("c", 0x40, 256));
    /// # Ok::<(), Box<dyn std::error::Error>>(())
    /// ```
    pub fn symbols(&self) -> Result<(Vec<SymbolData>, u64), ParseError> {
        Ok(symbols_of(self.0.symbols(Global)?).unwrap_or_else(|_| out_of_memory()))
    }

    /// Returns what [`Pe::symbols`] does.
    ///
    /// # Errors
    ///
    /// Those of [`Pe::symbols`], and [`Error::OutOfMemory`] if an allocation failed.
    pub fn try_symbols(&self) -> Result<(Vec<SymbolData>, u64), Error> {
        Ok(symbols_of(self.0.symbols(Global)?)?)
    }

    /// Returns the function symbols of [`Pe::symbols`] with their names as the file stores them.
    ///
    /// # Errors
    ///
    /// Those of [`Pe::try_symbols`].
    ///
    /// # Examples
    ///
    /// ```
    /// use binfarce::pe;
    ///
    /// # let path = concat!(env!("CARGO_MANIFEST_DIR"), "/samples/pe.bin");
    /// let file = std::fs::read(path)?;
    /// let (functions, _text_size) = pe::parse(&file)?.functions()?;
    /// assert_eq!((functions[2].name, functions[2].size), ("c", 192));
    /// # Ok::<(), Box<dyn std::error::Error>>(())
    /// ```
    pub fn functions(&self) -> Result<(Vec<FunctionSymbol<'a>>, u64), Error> {
        let (functions, size) = self.0.functions(Global)?;
        Ok((functions.into_std(), size))
    }

    /// Returns the function symbols of all sections, external and static, each with its section's number: by section, and in
    /// each by offset in it and at equal offsets in table order. An address is a virtual address, modulo 2^64; in an
    /// object, a file without an optional header of PE32 or PE32+, it is the offset in the section. A size ends at the
    /// next greater address of an external or static symbol of the section, which needn't be a function, or of a label
    /// whose name doesn't begin with `.`, `L` or `$`, and with the section in memory at the latest. Sections are numbered
    /// from 1 on, also those whose name isn't UTF-8.
    ///
    /// # Errors
    ///
    /// [`ParseError::UnexpectedEof`] where the section table doesn't begin in the file or a header is truncated, and where the
    /// symbol table doesn't begin in the file or passes its end; [`Error::OutOfMemory`] if an allocation failed.
    ///
    /// # Examples
    ///
    /// ```
    /// use binfarce::pe;
    ///
    /// # let path = concat!(env!("CARGO_MANIFEST_DIR"), "/samples/pe-image.bin");
    /// let file = std::fs::read(path)?;
    /// // In a section addresses are offsets, and among all sections virtual addresses.
    /// let program = pe::parse(&file)?;
    /// assert_eq!(program.functions()?.0[0].address, 0);
    /// assert_eq!(program.all_functions()?[0].function.address, 0x1_4000_1000);
    /// # Ok::<(), Box<dyn std::error::Error>>(())
    /// ```
    pub fn all_functions(&self) -> Result<Vec<SectionFunction<'a>>, Error> {
        Ok(self.0.all_functions(Global)?.into_std())
    }
}

/// An iterator over the sections of a file: the answer of [`Pe::sections`]. After an error it ends.
#[must_use = "iterators are lazy and do nothing unless consumed"]
#[derive(Clone)]
pub struct Sections<'a>(Bounded<erased::Sections<'a>>);

impl<'a> Iterator for Sections<'a> {
    type Item = Result<Section<'a>, ParseError>;

    fn next(&mut self) -> Option<Self::Item> {
        Some(self.0.next()?.map(Section).map_err(ParseError::from))
    }

    fn size_hint(&self) -> (usize, Option<usize>) {
        self.0.size_hint()
    }
}

of_iterators!(Sections);
