//! The readers of both classes of ELF files: `elf32` and `elf64` differ in the width of addresses, offsets and sizes.

/// The lines of an example that open a small file of a class.
macro_rules! opened {
    ($erased:ident) => {
        concat!(
            "use binfarce::{ByteOrder, ",
            stringify!($erased),
            "};\n\n# let path = concat!(env!(\"CARGO_MANIFEST_DIR\"), \"/samples/",
            stringify!($erased),
            "-little.bin\");\nlet file = std::fs::read(path)?;\nlet elf = ",
            stringify!($erased),
            "::parse(&file, ByteOrder::LittleEndian)?;"
        )
    };
}

/// Writes the items of a class: its file, its header, its width, and the length of its header in bytes.
macro_rules! reader {
    ($erased:ident, $Elf:ident, $Header:ident, $Width:ident, $least:literal) => {
        use crate::any::Bounded;
        use crate::demangle::SymbolData;
        use crate::erased::binfarce::$erased as erased;
        use crate::erased::binfarce_elf::sections::HasSections;
        use crate::error::{Error, ParseError, out_of_memory};
        use crate::shim::alloc::Global;
        use crate::{ByteOrder, FunctionSymbol, SectionFunction, SymbolTable, symbols_of};
        use alloc::vec::Vec;
        use core::fmt;
        use core::ops::Range;

        /// The file header without its identification.
        #[derive(Debug, Clone, Copy, PartialEq, Eq, Hash)]
        pub struct $Header {
            /// The type of the file (`e_type`): 1 relocatable, 2 executable, 3 shared object, 4 core.
            pub elf_type: u16,
            /// The architecture (`e_machine`).
            pub machine: u16,
            /// The version of the format (`e_version`).
            pub version: u32,
            /// The address where the program begins, or 0 (`e_entry`).
            pub entry: $Width,
            /// The offset of the program header table in bytes, or 0 (`e_phoff`).
            pub phoff: $Width,
            /// The offset of the section header table in bytes, or 0 (`e_shoff`).
            pub shoff: $Width,
            /// Flags of the architecture (`e_flags`).
            pub flags: u32,
            /// The size of the file header in bytes, as the file states it (`e_ehsize`).
            pub ehsize: u16,
            /// The size of a program header in bytes, as the file states it (`e_phentsize`).
            pub phentsize: u16,
            /// The number of program headers (`e_phnum`).
            pub phnum: u16,
            /// The size of a section header in bytes, as the file states it (`e_shentsize`).
            pub shentsize: u16,
            /// The number of section headers (`e_shnum`).
            pub shnum: u16,
            /// The index of the section with the section names (`e_shstrndx`).
            pub shstrndx: u16,
        }

        /// A section. It doesn't borrow the file.
        #[derive(Clone, Copy)]
        pub struct Section(erased::Section);

        impl Section {
            /// Returns the section's bytes as a range of the file (`sh_offset`, `sh_size`), which may end past the file.
            ///
            /// # Errors
            ///
            /// [`ParseError::MalformedInput`] where the range's end passes a `usize`.
            pub fn range(&self) -> Result<Range<usize>, ParseError> {
                Ok(self.0.range()?)
            }

            /// Returns the number of the section's entries (`sh_size` divided by `sh_entsize`); 0 if their size is 0.
            #[must_use]
            pub fn entries(&self) -> $Width {
                self.0.entries()
            }

            /// Returns the section's name, a part of the file `parent`. `None` if it has no valid one.
            #[must_use]
            pub fn name<'a>(&self, parent: &$Elf<'a>) -> Option<&'a str> {
                self.0.name(&parent.0)
            }

            /// Returns the type of the section (`sh_type`).
            #[must_use]
            pub fn section_type(&self) -> u32 {
                self.0.section_type()
            }

            /// Returns the flags of the section (`sh_flags`).
            #[must_use]
            pub fn flags(&self) -> $Width {
                self.0.flags()
            }

            /// Returns how many bytes the section has in the file: its size, but 0 if its type is `SHT_NOBITS`.
            #[must_use]
            pub fn file_size(&self) -> u64 {
                self.0.file_size()
            }

            /// Returns how many bytes the section has in memory: its size where its flags have `SHF_ALLOC`, else 0.
            #[must_use]
            pub fn memory_size(&self) -> u64 {
                self.0.memory_size()
            }

            /// Returns the address of the section's first byte in memory, or 0 (`sh_addr`).
            #[must_use]
            pub fn address(&self) -> $Width {
                self.0.address()
            }

            /// Returns the offset of the section's first byte in the file (`sh_offset`), as the file states it.
            #[must_use]
            pub fn offset(&self) -> $Width {
                self.0.offset()
            }

            /// Returns the section's size in bytes (`sh_size`), as the file states it. A section of type `SHT_NOBITS` has
            /// this size in memory alone.
            #[must_use]
            pub fn size(&self) -> $Width {
                self.0.size()
            }

            /// Returns the index of the section's header in the section header table, which counts from 0.
            #[must_use]
            pub fn index(&self) -> u16 {
                self.0.index
            }
        }

        of_values! {
            Section: |it| (
                (it.0.index, it.0.name_offset, it.0.kind, it.0.link),
                (it.0.address, it.0.offset, it.0.size, it.0.entry_size, it.0.flags),
            );
        }

        impl fmt::Debug for Section {
            fn fmt(&self, f: &mut fmt::Formatter<'_>) -> fmt::Result {
                f.debug_struct("Section")
                    .field("index", &self.0.index)
                    .field("name_offset", &self.0.name_offset)
                    .field("kind", &self.0.kind)
                    .field("link", &self.0.link)
                    .field("offset", &self.0.offset)
                    .field("size", &self.0.size)
                    .field("entry_size", &self.0.entry_size)
                    .finish()
            }
        }

        /// An ELF file. It borrows the file's bytes.
        pub struct $Elf<'a>(erased::$Elf<'a>);

        impl Clone for $Elf<'_> {
            fn clone(&self) -> Self {
                let table = self.0.section_table();
                $Elf(erased::parse(table.data, table.byte_order).expect("the header was read before"))
            }
        }

        impl fmt::Debug for $Elf<'_> {
            fn fmt(&self, f: &mut fmt::Formatter<'_>) -> fmt::Result {
                f.debug_struct(stringify!($Elf)).field("header", &self.header()).finish_non_exhaustive()
            }
        }

        /// Reads the file header in the given byte order. The magic number isn't checked:
        /// [`detect_format`](crate::detect_format) does that.
        ///
        /// # Errors
        ///
        #[doc = concat!("[`ParseError::UnexpectedEof`] for fewer than ", $least, " bytes.")]
        ///
        /// # Examples
        ///
        /// ```
        #[doc = crate::elf::opened!($erased)]
        /// assert_eq!(elf.header().shnum, 5);
        /// # Ok::<(), Box<dyn std::error::Error>>(())
        /// ```
        pub fn parse(data: &[u8], byte_order: ByteOrder) -> Result<$Elf<'_>, ParseError> {
            Ok($Elf(erased::parse(data, byte_order)?))
        }

        impl<'a> $Elf<'a> {
            /// Returns the file header.
            ///
            /// # Examples
            ///
            /// ```
            #[doc = crate::elf::opened!($erased)]
            /// let header = elf.header();
            /// assert_eq!((header.elf_type, header.version, header.shstrndx), (1, 1, 4));
            /// # Ok::<(), Box<dyn std::error::Error>>(())
            /// ```
            #[must_use]
            pub fn header(&self) -> $Header {
                let header = self.0.header();
                $Header {
                    elf_type: header.elf_type,
                    machine: header.machine,
                    version: header.version,
                    entry: header.entry,
                    phoff: header.phoff,
                    shoff: header.shoff,
                    flags: header.flags,
                    ehsize: header.ehsize,
                    phentsize: header.phentsize,
                    phnum: header.phnum,
                    shentsize: header.shentsize,
                    shnum: header.shnum,
                    shstrndx: header.shstrndx,
                }
            }

            /// Returns an iterator over the sections in file order. A section header is read when the iterator reaches it.
            ///
            /// # Examples
            ///
            /// ```
            #[doc = crate::elf::opened!($erased)]
            /// let sections = elf.sections().collect::<Result<Vec<_>, _>>()?;
            /// assert_eq!(sections[1].name(&elf), Some(".text"));
            /// # Ok::<(), Box<dyn std::error::Error>>(())
            /// ```
            pub fn sections(&self) -> Sections<'a> {
                // One for each header, or an error in place of one that is missing.
                Sections(Bounded::new(self.0.sections(), usize::from(self.0.header().shnum) + 1))
            }

            /// Returns the first section that `callback` accepts, in file order.
            ///
            /// # Errors
            ///
            /// [`ParseError::UnexpectedEof`] where the section header table doesn't begin in the file, or a header is
            /// truncated. `callback` gets the sections before it first.
            ///
            /// # Examples
            ///
            /// ```
            #[doc = crate::elf::opened!($erased)]
            /// // The first symbol table (`SHT_SYMTAB`).
            /// let table = elf.find_section(|section| section.section_type() == 2)?;
            /// assert_eq!(table.and_then(|section| section.name(&elf)), Some(".symtab"));
            /// # Ok::<(), Box<dyn std::error::Error>>(())
            /// ```
            pub fn find_section<F: Fn(Section) -> bool>(&self, callback: F) -> Result<Option<Section>, ParseError> {
                Ok(self.0.find_section(|section| callback(Section(section)))?.map(Section))
            }

            /// Returns the first section with this name.
            ///
            /// # Errors
            ///
            /// Those of `find_section`.
            ///
            /// # Examples
            ///
            /// ```
            #[doc = crate::elf::opened!($erased)]
            /// let text = elf.section_with_name(".text")?;
            /// assert_eq!(text.map(|section| section.size()), Some(32));
            /// # Ok::<(), Box<dyn std::error::Error>>(())
            /// ```
            pub fn section_with_name(&self, name: &str) -> Result<Option<Section>, ParseError> {
                Ok(self.0.section_with_name(name)?.map(Section))
            }

            /// Returns the section of this index, which counts from 0; `None` if there are fewer.
            ///
            /// # Errors
            ///
            /// Those of `find_section`.
            ///
            /// # Examples
            ///
            /// ```
            #[doc = crate::elf::opened!($erased)]
            /// let first = elf.section_with_index(1)?;
            /// assert_eq!(first.and_then(|section| section.name(&elf)), Some(".text"));
            /// # Ok::<(), Box<dyn std::error::Error>>(())
            /// ```
            pub fn section_with_index(&self, index: u32) -> Result<Option<Section>, ParseError> {
                Ok(self.0.section_with_index(index)?.map(Section))
            }

            /// Returns the section's bytes, a part of the file.
            ///
            /// # Errors
            ///
            /// As of [`section_bytes`](crate::section_bytes): [`Error::NoBytes`] for a section of type `SHT_NOBITS`, such as
            /// `.bss`; [`Error::PastEnd`] where its bytes end past the file.
            ///
            /// # Examples
            ///
            /// ```
            #[doc = crate::elf::opened!($erased)]
            /// let text = elf.section_with_name(".text")?.ok_or("no text section")?;
            /// assert_eq!(elf.section_bytes(&text)?, &file[text.range()?]);
            /// # Ok::<(), Box<dyn std::error::Error>>(())
            /// ```
            pub fn section_bytes(&self, section: &Section) -> Result<&'a [u8], Error> {
                // `SHT_NOBITS`.
                match section.section_type() {
                    8 => Err(Error::NoBytes),
                    _ => self.0.section_bytes(&section.0).map_err(|_| Error::PastEnd),
                }
            }

            /// Returns the function symbols of the section with this name with readable names, in the order of the symbol
            /// table, and the section's size in bytes. Symbols of size 0 and indirect functions (`STT_GNU_IFUNC`) are left
            /// out; `all_functions` has them.
            ///
            /// Where an allocation fails, the program ends as it does where a `Vec` can't grow; `try_symbols` returns an
            /// error there.
            ///
            /// # Errors
            ///
            /// Those of `functions`.
            ///
            /// # Examples
            ///
            /// ```
            #[doc = crate::elf::opened!($erased)]
            /// let (symbols, text_size) = elf.symbols(".text")?;
            /// assert_eq!((symbols[0].name.trimmed.as_str(), symbols[0].address, text_size), ("foo", 0x1000, 32));
            /// # Ok::<(), Box<dyn std::error::Error>>(())
            /// ```
            pub fn symbols(&self, section_name: &str) -> Result<(Vec<SymbolData>, u64), ParseError> {
                Ok(symbols_of(self.0.symbols(Global, section_name)?).unwrap_or_else(|_| out_of_memory()))
            }

            /// Returns what `symbols` does.
            ///
            /// # Errors
            ///
            /// Those of `functions`, and [`Error::OutOfMemory`] if an allocation failed.
            pub fn try_symbols(&self, section_name: &str) -> Result<(Vec<SymbolData>, u64), Error> {
                Ok(symbols_of(self.0.symbols(Global, section_name)?)?)
            }

            /// Returns an iterator over the function symbols of `symbols` with their names as the file stores them, and
            /// the section's size in bytes. Nothing is allocated.
            ///
            /// # Errors
            ///
            /// In this order: those of `find_section`; [`ParseError::SymbolsSectionIsMissing`];
            /// [`ParseError::SectionIsMissing`] for `.symtab` and then for `.strtab`;
            /// [`ParseError::UnexpectedSectionType`]; [`ParseError::MalformedInput`] where the end of the string table or
            /// of the symbol table passes 64 bits; [`ParseError::UnexpectedEof`] where it passes the end of the file, or
            /// the last symbol is truncated.
            ///
            /// # Examples
            ///
            /// ```
            #[doc = crate::elf::opened!($erased)]
            /// let (mut functions, _text_size) = elf.functions(".text")?;
            /// assert_eq!(functions.next().map(|function| function.name), Some("_ZN3foo3barE"));
            /// # Ok::<(), Box<dyn std::error::Error>>(())
            /// ```
            pub fn functions(&self, section_name: &str) -> Result<(Functions<'a>, u64), ParseError> {
                let (functions, size) = self.0.functions(section_name)?;
                Ok((Functions(self.bounded(functions)), size))
            }

            /// Returns what `symbols` does, of the dynamic symbol table, which a stripped file still has.
            ///
            /// # Errors
            ///
            /// Those of `dynamic_functions`, and [`Error::OutOfMemory`] if an allocation failed.
            pub fn dynamic_symbols(&self, section_name: &str) -> Result<(Vec<SymbolData>, u64), Error> {
                Ok(symbols_of(self.0.dynamic_symbols(Global, section_name)?)?)
            }

            /// Returns what `functions` does, of the dynamic symbol table, and indirect functions (`STT_GNU_IFUNC`).
            ///
            /// # Errors
            ///
            /// Those of `functions`, with [`ParseError::SectionIsMissing`] for `.dynsym` and then for `.dynstr`.
            pub fn dynamic_functions(&self, section_name: &str) -> Result<(Functions<'a>, u64), ParseError> {
                let (functions, size) = self.0.dynamic_functions(section_name)?;
                Ok((Functions(self.bounded(functions)), size))
            }

            /// Returns the function symbols of all sections, each with the index of its section, in the order of this
            /// symbol table: at their addresses and with their sizes in memory, with their names as the file stores them.
            /// Indirect functions (`STT_GNU_IFUNC`) count too. A function of size 0, such as `_start`, ends at the next
            /// greater address of a symbol of its section, or with the section. In a file for Arm, bit 0 of a function's
            /// value, which marks Thumb code, is cleared.
            ///
            /// # Errors
            ///
            /// In this order: [`ParseError::UnexpectedEof`] where the section header table doesn't begin in the file or a
            /// section header is truncated; those of `functions` or `dynamic_functions` from the missing symbol table on;
            /// [`Error::OutOfMemory`] if an allocation failed.
            ///
            /// # Examples
            ///
            /// ```
            #[doc = crate::elf::opened!($erased)]
            /// let functions = elf.all_functions(binfarce::SymbolTable::Symtab)?;
            /// assert_eq!(functions.iter().map(|it| (it.section, it.function.size)).collect::<Vec<_>>(), [(1, 16), (2, 16), (1, 0)]);
            /// # Ok::<(), Box<dyn std::error::Error>>(())
            /// ```
            pub fn all_functions(&self, table: SymbolTable) -> Result<Vec<SectionFunction<'a>>, Error> {
                Ok(self.0.all_functions(Global, table.into_erased())?.into_std())
            }

            /// The rows of a symbol table in the file, each of 16 bytes or more.
            fn bounded<I>(&self, rows: I) -> Bounded<I> {
                Bounded::new(rows, self.0.section_table().data.len() / 16)
            }
        }

        /// An iterator over the sections of a file. After an error it ends.
        #[must_use = "iterators are lazy and do nothing unless consumed"]
        #[derive(Clone)]
        pub struct Sections<'a>(Bounded<erased::Sections<'a>>);

        impl Iterator for Sections<'_> {
            type Item = Result<Section, ParseError>;

            fn next(&mut self) -> Option<Self::Item> {
                Some(self.0.next()?.map(Section).map_err(ParseError::from))
            }

            fn size_hint(&self) -> (usize, Option<usize>) {
                self.0.size_hint()
            }
        }

        /// An iterator over the function symbols of a section.
        #[must_use = "iterators are lazy and do nothing unless consumed"]
        #[derive(Clone)]
        pub struct Functions<'a>(Bounded<erased::Functions<'a>>);

        impl<'a> Iterator for Functions<'a> {
            type Item = FunctionSymbol<'a>;

            fn next(&mut self) -> Option<Self::Item> {
                self.0.next()
            }

            fn size_hint(&self) -> (usize, Option<usize>) {
                self.0.size_hint()
            }
        }

        of_iterators!(Sections, Functions);
    };
}

pub(crate) use {opened, reader};
