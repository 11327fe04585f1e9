//! 64-bit Mach-O files, which are little endian.
//!
//! # Examples
//!
//! ```
//! use binfarce::{ParseError, macho};
//!
//! /// Where the code of a program is in its file.
//! fn code(file: &[u8]) -> Result<Option<std::ops::Range<usize>>, ParseError> {
//!     let section = macho::parse(file)?.section_with_name("__TEXT", "__text")?;
//!     section.map(|section| section.range()).transpose()
//! }
//! # assert!(matches!(code(b""), Err(ParseError::UnexpectedEof)));
//! ```

use crate::demangle::SymbolData;
use crate::erased::binfarce::macho as erased;
use crate::error::{Error, ParseError, out_of_memory};
use crate::shim::alloc::Global;
use crate::{FunctionSymbol, SectionFunction, number_in, symbols_of};
use alloc::vec::Vec;
use core::fmt;
use core::ops::Range;

/// The file header (`mach_header_64`) without its magic number.
#[derive(Debug, Clone, Copy, PartialEq, Eq, Hash)]
pub struct MachoHeader {
    /// The architecture (`cputype`): 0x1000007 x86-64, 0x100000c ARM64.
    pub cputype: u32,
    /// The kind of processor within the architecture (`cpusubtype`).
    pub cpusubtype: u32,
    /// The type of the file (`filetype`): 1 object, 2 program, 6 shared library, 8 bundle, 10 debug information.
    pub filetype: u32,
    /// The number of load commands (`ncmds`).
    pub ncmds: u32,
    /// The size of all load commands in bytes (`sizeofcmds`).
    pub sizeofcmds: u32,
    /// Flags (`flags`).
    pub flags: u32,
}

/// A section. Its names are parts of the file.
#[derive(Clone, Copy)]
pub struct Section<'a>(erased::Section<'a>);

impl<'a> Section<'a> {
    /// Returns the section's bytes as a range of the file, which may end past the file.
    ///
    /// # Errors
    ///
    /// [`ParseError::MalformedInput`] where the range's end passes a `usize`.
    pub fn range(&self) -> Result<Range<usize>, ParseError> {
        Ok(self.0.range()?)
    }

    /// Returns the section's name (`sectname`).
    #[must_use]
    pub fn name(&self) -> &'a str {
        self.0.name()
    }

    /// Returns the name of the section's segment (`segname`).
    #[must_use]
    pub fn segment_name(&self) -> &'a str {
        self.0.segment_name()
    }

    /// Returns the address of the section's first byte in memory (`addr`).
    #[must_use]
    pub fn address(&self) -> u64 {
        self.0.address()
    }

    /// Returns the offset of the section's first byte in the file, or 0 if it has no bytes there (`offset`).
    #[must_use]
    pub fn offset(&self) -> u32 {
        self.0.offset()
    }

    /// Returns the section's size in bytes (`size`).
    #[must_use]
    pub fn size(&self) -> u64 {
        self.0.size()
    }

    /// Returns the section's flags (`flags`): its type in the low byte, and attributes. 0 if the file ends before them.
    #[must_use]
    pub fn flags(&self) -> u32 {
        self.0.flags()
    }

    /// Returns the section's type (`SECTION_TYPE`), the low byte of its flags.
    #[must_use]
    pub fn section_type(&self) -> u32 {
        self.0.section_type()
    }

    /// Returns how many bytes the section has in the file: its size, but 0 if its type fills it with zeros in memory, or
    /// its offset is 0.
    #[must_use]
    pub fn file_size(&self) -> u64 {
        self.0.file_size()
    }
}

of_values! {
    Section<'_>: |it| (it.0.segment_name, it.0.section_name, it.0.address, it.0.offset, it.0.size, it.0.flags);
}

impl fmt::Debug for Section<'_> {
    fn fmt(&self, f: &mut fmt::Formatter<'_>) -> fmt::Result {
        f.debug_struct("Section")
            .field("segment_name", &self.0.segment_name)
            .field("section_name", &self.0.section_name)
            .field("address", &self.0.address)
            .field("offset", &self.0.offset)
            .field("size", &self.0.size)
            .finish()
    }
}

/// A Mach-O file. It borrows the file's bytes.
#[derive(Clone)]
pub struct Macho<'a>(erased::Macho<'a>);

impl fmt::Debug for Macho<'_> {
    fn fmt(&self, f: &mut fmt::Formatter<'_>) -> fmt::Result {
        self.0.fmt(f)
    }
}

/// Reads the file header. The magic number isn't checked: what is returned of a universal, 32-bit or big-endian file has no meaning.
/// [`detect_format`](crate::detect_format) doesn't tell them apart; [`sections`](crate::sections) and its like refuse them.
///
/// # Errors
///
/// [`ParseError::UnexpectedEof`] for fewer than 28 bytes.
///
/// # Examples
///
/// ```
/// use binfarce::macho;
///
/// # let path = concat!(env!("CARGO_MANIFEST_DIR"), "/samples/macho.bin");
/// let file = std::fs::read(path)?;
/// let file = macho::parse(&file)?;
/// assert_eq!(file.header().ncmds, 2);
/// assert!(macho::parse(b"").is_err());
/// # Ok::<(), Box<dyn std::error::Error>>(())
/// ```
pub fn parse(data: &[u8]) -> Result<Macho<'_>, ParseError> {
    Ok(Macho(erased::parse(data)?))
}

impl<'a> Macho<'a> {
    /// Returns the file header.
    #[must_use]
    pub fn header(&self) -> MachoHeader {
        let file = self.0.data();
        MachoHeader {
            cputype: number_in(file, 4),
            cpusubtype: number_in(file, 8),
            filetype: number_in(file, 12),
            ncmds: number_in(file, 16),
            sizeofcmds: number_in(file, 20),
            flags: number_in(file, 24),
        }
    }

    /// Returns an iterator over the sections in file order. A section is read when the iterator reaches it. Sections
    /// whose names are empty or not UTF-8 are skipped.
    ///
    /// # Examples
    ///
    /// ```
    /// use binfarce::macho;
    ///
    /// # let path = concat!(env!("CARGO_MANIFEST_DIR"), "/samples/macho.bin");
    /// let file = std::fs::read(path)?;
    /// let sections = macho::parse(&file)?.sections().collect::<Result<Vec<_>, _>>()?;
    /// assert_eq!((sections[0].segment_name(), sections[0].name(), sections[0].size()), ("__TEXT", "__text", 256));
    /// # Ok::<(), Box<dyn std::error::Error>>(())
    /// ```
    pub fn sections(&self) -> Sections<'a> {
        Sections(self.0.sections())
    }

    /// Returns the first section that `callback` accepts, in file order.
    ///
    /// # Errors
    ///
    /// [`ParseError::UnexpectedEof`] where a segment command or a section is truncated, [`ParseError::MalformedInput`]
    /// where the size of a load command is below 8. `callback` gets the sections before it first.
    ///
    /// # Examples
    ///
    /// ```
    /// use binfarce::macho;
    ///
    /// # let path = concat!(env!("CARGO_MANIFEST_DIR"), "/samples/macho.bin");
    /// let file = std::fs::read(path)?;
    /// let at = macho::parse(&file)?.find_section(|section| section.address() == 0x1000)?;
    /// assert_eq!(at.map(|section| section.name()), Some("__text"));
    /// # Ok::<(), Box<dyn std::error::Error>>(())
    /// ```
    pub fn find_section<F: Fn(Section<'_>) -> bool>(&self, callback: F) -> Result<Option<Section<'a>>, ParseError> {
        Ok(self.0.find_section(|section| callback(Section(section)))?.map(Section))
    }

    /// Returns the first section with these names.
    ///
    /// # Errors
    ///
    /// Those of [`Macho::find_section`].
    ///
    /// # Examples
    ///
    /// ```
    /// use binfarce::macho;
    ///
    /// # let path = concat!(env!("CARGO_MANIFEST_DIR"), "/samples/macho.bin");
    /// let file = std::fs::read(path)?;
    /// let text = macho::parse(&file)?.section_with_name("__TEXT", "__text")?;
    /// assert_eq!(text.map(|section| section.size()), Some(256));
    /// # Ok::<(), Box<dyn std::error::Error>>(())
    /// ```
    pub fn section_with_name(&self, segment_name: &str, section_name: &str) -> Result<Option<Section<'a>>, ParseError> {
        Ok(self.0.section_with_name(segment_name, section_name)?.map(Section))
    }

    /// Returns the section's bytes, a part of the file.
    ///
    /// # Errors
    ///
    /// As of [`section_bytes`](crate::section_bytes): [`Error::NoBytes`] for a section that is filled with zeros by its type, or
    /// whose offset is 0; [`Error::PastEnd`] where its bytes end past the file.
    ///
    /// # Examples
    ///
    /// ```
    /// use binfarce::macho;
    ///
    /// # let path = concat!(env!("CARGO_MANIFEST_DIR"), "/samples/macho.bin");
    /// let file = std::fs::read(path)?;
    /// let program = macho::parse(&file)?;
    /// let text = program.section_with_name("__TEXT", "__text")?.ok_or("no text section")?;
    /// // The offset of this small file's section is 0.
    /// assert_eq!(program.section_bytes(&text), Err(binfarce::Error::NoBytes));
    /// # Ok::<(), Box<dyn std::error::Error>>(())
    /// ```
    pub fn section_bytes(&self, section: &Section<'_>) -> Result<&'a [u8], Error> {
        if section.0.is_zero_filled() || section.offset() == 0 {
            return Err(Error::NoBytes);
        }
        self.0.section_bytes(&section.0).map_err(|_| Error::PastEnd)
    }

    /// Returns the function symbols of the text section with readable names, by address, and the section's size in bytes. Those at
    /// address 0 are left out, so the first function of an object file; [`Macho::all_functions`] has them.
    ///
    /// A symbol's size is the distance to the next greater address, or to the end of the section. Where an allocation
    /// fails, the program ends as it does where a `Vec` can't grow; [`Macho::try_symbols`] returns an error there.
    ///
    /// # Errors
    ///
    /// Those of [`Macho::find_section`]; [`ParseError::SymbolsSectionIsMissing`] without a section `__text` of `__TEXT`;
    /// [`ParseError::MalformedInput`] where that is empty, or its end passes 64 bits or lies before a symbol;
    /// [`ParseError::UnexpectedEof`] where the symbol table is truncated.
    ///
    /// # Examples
    ///
    /// ```
    /// use binfarce::macho;
    ///
    /// # let path = concat!(env!("CARGO_MANIFEST_DIR"), "/samples/macho.bin");
    /// let file = std::fs::read(path)?;
    /// let (symbols, text_size) = macho::parse(&file)?.symbols()?;
    /// assert_eq!((symbols[2].name.trimmed.as_str(), symbols[2].address, text_size), ("c", 0x1040, 256));
    /// # Ok::<(), Box<dyn std::error::Error>>(())
    /// ```
    pub fn symbols(&self) -> Result<(Vec<SymbolData>, u64), ParseError> {
        Ok(symbols_of(self.0.symbols(Global)?).unwrap_or_else(|_| out_of_memory()))
    }

    /// Returns what [`Macho::symbols`] does.
    ///
    /// # Errors
    ///
    /// Those of [`Macho::symbols`], and [`Error::OutOfMemory`] if an allocation failed.
    pub fn try_symbols(&self) -> Result<(Vec<SymbolData>, u64), Error> {
        Ok(symbols_of(self.0.symbols(Global)?)?)
    }

    /// Returns the function symbols of [`Macho::symbols`] with their names as the file stores them.
    ///
    /// # Errors
    ///
    /// Those of [`Macho::try_symbols`].
    ///
    /// # Examples
    ///
    /// ```
    /// use binfarce::macho;
    ///
    /// # let path = concat!(env!("CARGO_MANIFEST_DIR"), "/samples/macho.bin");
    /// let file = std::fs::read(path)?;
    /// let (functions, _text_size) = macho::parse(&file)?.functions()?;
    /// assert_eq!((functions[2].name, functions[2].size), ("c", 192));
    /// # Ok::<(), Box<dyn std::error::Error>>(())
    /// ```
    pub fn functions(&self) -> Result<(Vec<FunctionSymbol<'a>>, u64), Error> {
        let (functions, size) = self.0.functions(Global)?;
        Ok((functions.into_std(), size))
    }

    /// Returns the function symbols of all sections that hold instructions, each with its section's number: by section, and in
    /// each by address and at equal addresses in table order. Kept are the rows that are defined in such a section and lie in it,
    /// but for labels of the assembler, whose names begin with `ltmp` or `L`. A size ends at the next greater address of these in
    /// the section, or with the section. Sections are numbered from 1 on, also those whose names aren't valid.
    ///
    /// # Errors
    ///
    /// Those of [`Macho::find_section`]; [`ParseError::UnexpectedEof`] where the symbol table's command, the string table or the
    /// symbol table are truncated; [`Error::OutOfMemory`] if an allocation failed.
    ///
    /// # Examples
    ///
    /// ```
    /// use binfarce::macho;
    ///
    /// # let path = concat!(env!("CARGO_MANIFEST_DIR"), "/samples/macho.bin");
    /// let file = std::fs::read(path)?;
    /// let functions = macho::parse(&file)?.all_functions()?;
    /// assert!(functions.iter().all(|it| it.section == 1));
    /// # Ok::<(), Box<dyn std::error::Error>>(())
    /// ```
    pub fn all_functions(&self) -> Result<Vec<SectionFunction<'a>>, Error> {
        Ok(self.0.all_functions(Global)?.into_std())
    }
}

/// An iterator over the sections of a file: the answer of [`Macho::sections`]. After an error it ends.
#[must_use = "iterators are lazy and do nothing unless consumed"]
#[derive(Clone)]
pub struct Sections<'a>(erased::Sections<'a>);

impl<'a> Iterator for Sections<'a> {
    type Item = Result<Section<'a>, ParseError>;

    fn next(&mut self) -> Option<Self::Item> {
        Some(self.0.next()?.map(Section).map_err(ParseError::from))
    }
}

of_iterators!(Sections);
