//! The function symbols of a file of any format: of one section or of all, from memory or from a file that is read at offsets.

use crate::any::{Functions, Items, known_format};
use crate::erased::binfarce::{elf32, elf64};
use crate::erased::binfarce_elf::symbol_table;
use crate::erased::binfarce_figures::claims::Claims;
use crate::erased::binfarce_figures::sums::numbers_of;
use crate::erased::binfarce_tables::ReadError;
use crate::erased::binfarce_tools::functions::{self as functions_of, Selected};
use crate::erased::binfarce_tools::tables;
use crate::error::{Error, ParseError};
use crate::figures::Grouping;
use crate::shim;
use crate::shim::alloc::Global;
use crate::{Format, FunctionSymbol, SectionFunction};
use alloc::string::String;
use alloc::vec::Vec;

/// Which function symbols of a file are meant.
#[derive(Debug, Clone, Copy, PartialEq, Eq, Hash)]
#[non_exhaustive]
pub enum Selection<'a> {
    /// Those of the section with this name in an ELF file, usually `.text`. Of a Mach-O or PE file they are always those of
    /// the code section.
    Section(&'a str),
    /// Those of all sections.
    All,
}

/// Which symbol table of an ELF file is read. Mach-O and PE files have only [`SymbolTable::Symtab`].
#[derive(Debug, Clone, Copy, PartialEq, Eq, Hash)]
#[non_exhaustive]
pub enum SymbolTable {
    /// The symbol table (`SHT_SYMTAB`), which a stripped file lacks.
    Symtab,
    /// The dynamic symbol table (`SHT_DYNSYM`), for the dynamic linker. A stripped file keeps it.
    Dynsym,
}

impl SymbolTable {
    pub(crate) fn into_erased(self) -> symbol_table::SymbolTable {
        match self {
            SymbolTable::Symtab => symbol_table::SymbolTable::Symtab,
            SymbolTable::Dynsym => symbol_table::SymbolTable::Dynsym,
        }
    }
}

/// The tables of a file's function symbols, for a [`Selection`] and a [`SymbolTable`].
///
/// # Examples
///
/// A file of which only the tables are read:
///
/// ```
/// use binfarce::{Selection, SymbolTable, Tables};
/// use std::{fs::File, io};
///
/// # fn main() -> io::Result<()> {
/// # let path = concat!(env!("CARGO_MANIFEST_DIR"), "/samples/elf64-little.bin");
/// let tables = Tables::read(File::open(path)?, Selection::All, SymbolTable::Symtab)?;
/// for function in tables.functions()? {
///     println!("{:016x} {}", function.address, function.name);
/// }
/// tables.list_to(io::stdout())?;
/// # Ok(())
/// # }
/// ```
pub struct Tables<'a>(pub(crate) tables::Tables<'a>);

impl<'a> From<Selection<'a>> for tables::Selection<'a> {
    fn from(selection: Selection<'a>) -> Self {
        match selection {
            Selection::Section(section) => tables::Selection::Section(section),
            Selection::All => tables::Selection::All,
        }
    }
}

impl<'a> Tables<'a> {
    /// Returns the tables of a file in memory. Those of a section by [`SymbolTable::Symtab`] are the file itself; all others are
    /// copied.
    ///
    /// # Errors
    ///
    /// All that a file is refused for, whatever is selected: [`Error::UnknownFormat`]; [`Error::Parse`] where the reader of the
    /// file's format refuses it, or for [`SymbolTable::Dynsym`] of a Mach-O or PE file; [`Error::OutOfMemory`] where an allocation
    /// failed. [`Error::kind`] tells them apart.
    ///
    /// # Examples
    ///
    /// A stripped file has its dynamic symbols alone:
    ///
    /// ```
    /// use binfarce::{Error, ErrorKind, Selection, SymbolTable, Tables};
    ///
    /// fn tables(file: &[u8]) -> Result<Tables<'_>, Error> {
    ///     match Tables::new(file, Selection::Section(".text"), SymbolTable::Symtab) {
    ///         Err(e) if e.kind() == ErrorKind::NoSymbolTable => {
    ///             Tables::new(file, Selection::Section(".text"), SymbolTable::Dynsym)
    ///         }
    ///         tables => tables,
    ///     }
    /// }
    ///
    /// # let path = concat!(env!("CARGO_MANIFEST_DIR"), "/samples/elf64-little.bin");
    /// assert_eq!(tables(&std::fs::read(path)?)?.functions()?.count(), 1);
    /// assert_eq!(tables(b"#!/bin/sh").unwrap_err().kind(), ErrorKind::UnknownFormat);
    /// # Ok::<(), Box<dyn std::error::Error>>(())
    /// ```
    pub fn new(file: &'a [u8], selection: Selection<'_>, table: SymbolTable) -> Result<Self, Error> {
        let format = known_format(file)?;
        let tables = match (selection, table) {
            (Selection::Section(section), SymbolTable::Symtab) => match stored_name(file, format, section)? {
                Some(stored) => tables::Tables::whole(file, stored).accepted(Global)?,
                None => return Err(ParseError::SymbolsSectionIsMissing.into()),
            },
            _ => {
                let selection = selection.into();
                tables::read_tables(Global, &file, &mut (), format, table.into_erased(), selection)?.accepted(Global)?
            }
        };
        Ok(Tables(tables))
    }

    /// Returns an iterator over the function symbols, with their names as the file stores them: those of a section as
    /// [`functions`](crate::functions) orders them, those of all sections as `all_functions` of the format's reader does.
    ///
    /// # Errors
    ///
    /// [`Error::OutOfMemory`] if an allocation failed, and no other.
    ///
    /// # Examples
    ///
    /// ```
    /// use binfarce::{Selection, SymbolTable, Tables};
    ///
    /// # let path = concat!(env!("CARGO_MANIFEST_DIR"), "/samples/elf64-little.bin");
    /// let file = std::fs::read(path)?;
    /// let tables = Tables::new(&file, Selection::All, SymbolTable::Symtab)?;
    /// assert_eq!(tables.functions()?.map(|function| function.name).collect::<Vec<_>>(), ["_ZN3foo3barE", "bad", "bad"]);
    /// # Ok::<(), Box<dyn std::error::Error>>(())
    /// ```
    pub fn functions(&self) -> Result<Functions<'_>, Error> {
        Ok(Functions(Items::All(AllFunctions::new(self.0.functions(Global)?.into_list().0.all)?)))
    }

    /// Returns the function symbols of all sections, each with its section's number; `None` if the tables are of one
    /// section.
    ///
    /// # Errors
    ///
    /// Those of [`Tables::functions`].
    ///
    /// # Examples
    ///
    /// ```
    /// use binfarce::{Selection, SymbolTable, Tables};
    ///
    /// # let path = concat!(env!("CARGO_MANIFEST_DIR"), "/samples/elf64-little.bin");
    /// let file = std::fs::read(path)?;
    /// let tables = Tables::new(&file, Selection::All, SymbolTable::Symtab)?;
    /// let symbols = tables.all_functions()?.into_iter().flatten();
    /// let sections = symbols.map(|symbol| tables.section_name(symbol.section)).collect::<Vec<_>>();
    /// assert_eq!(sections, [Some(".text"), Some(".symtab"), Some(".text")]);
    /// # Ok::<(), Box<dyn std::error::Error>>(())
    /// ```
    pub fn all_functions(&self) -> Result<Option<AllFunctions<'_>>, Error> {
        match self.0.functions(Global)? {
            Selected { size: Some(_), .. } => Ok(None),
            Selected { functions, size: None } => Ok(Some(AllFunctions::new(functions)?)),
        }
    }

    /// Returns the name of the section of this number. `None` if there is none, if it has no valid name, and where the
    /// tables are of one section.
    ///
    /// # Examples
    ///
    /// ```
    /// use binfarce::{Selection, SymbolTable, Tables};
    ///
    /// # let path = concat!(env!("CARGO_MANIFEST_DIR"), "/samples/macho.bin");
    /// let file = std::fs::read(path)?;
    /// let tables = Tables::new(&file, Selection::All, SymbolTable::Symtab)?;
    /// assert_eq!((tables.section_name(1), tables.section_name(2)), (Some("__TEXT,__text"), None));
    /// # Ok::<(), Box<dyn std::error::Error>>(())
    /// ```
    #[must_use]
    pub fn section_name(&self, number: u32) -> Option<&str> {
        self.0.section_name(number)
    }

    /// Returns whether the selected sections share addresses, so that an address may be that of symbols in several: all
    /// sections of an ELF object file do, and of a PE file without an image base.
    ///
    /// # Examples
    ///
    /// ```
    /// use binfarce::{Selection, SymbolTable, Tables};
    ///
    /// # let path = concat!(env!("CARGO_MANIFEST_DIR"), "/samples/macho.bin");
    /// let file = std::fs::read(path)?;
    /// let tables = Tables::new(&file, Selection::All, SymbolTable::Symtab)?;
    /// assert!(!tables.shares_addresses());
    /// # Ok::<(), Box<dyn std::error::Error>>(())
    /// ```
    #[must_use]
    pub fn shares_addresses(&self) -> bool {
        self.0.shares_addresses()
    }

    /// Returns the sums of [`Tables::figures_to`](Tables#method.figures_to) by a [`Key`](crate::figures::Key) or a [`Grouping`]:
    /// how many bytes each crate, function, generic function or section takes. A byte of several function symbols counts once.
    ///
    /// # Errors
    ///
    /// Those of [`Tables::functions`]; [`Error::TooLarge`] where the sum of all, each byte counted once, is 2^64 or
    /// more.
    ///
    /// # Examples
    ///
    /// ```
    /// use binfarce::figures::Key;
    /// use binfarce::{Selection, SymbolTable, Tables};
    ///
    /// # let path = concat!(env!("CARGO_MANIFEST_DIR"), "/samples/elf64-little.bin");
    /// let file = std::fs::read(path)?;
    /// let tables = Tables::new(&file, Selection::Section(".text"), SymbolTable::Symtab)?;
    /// let sums = tables.sums_by_key(Key::Crate)?;
    /// assert_eq!(sums.rows, [("foo".to_string(), 16)]);
    /// assert_eq!((sums.total, sums.section_size), (16, 32));
    /// # Ok::<(), Box<dyn std::error::Error>>(())
    /// ```
    pub fn sums_by_key(&self, grouping: impl Into<Grouping>) -> Result<Sums<String>, Error> {
        let claims = Claims::of_tables(Global, &self.0)?;
        let numbers = numbers_of(Global, &claims, grouping.into().into_erased())?;
        let mut rows = shim::Vec::new(Global);
        for (name, numbers) in numbers {
            rows.push((name.into_std(), numbers.sum))?;
        }
        Ok(Sums { rows: rows.into_std(), total: claims.total, section_size: claims.size.unwrap_or(claims.total) })
    }

    /// Returns how many bytes the function symbols of each key take, by any key. A byte counts for each function symbol that has
    /// it.
    ///
    /// # Errors
    ///
    /// Those of [`Tables::functions`], and of `key`; [`Error::TooLarge`] where the sum of all sizes is 2^64 or more.
    ///
    /// # Examples
    ///
    /// ```
    /// use binfarce::{Selection, SymbolTable, Tables, demangle};
    ///
    /// # let path = concat!(env!("CARGO_MANIFEST_DIR"), "/samples/elf64-little.bin");
    /// let file = std::fs::read(path)?;
    /// let tables = Tables::new(&file, Selection::All, SymbolTable::Symtab)?;
    /// let by_name = tables.sums_by(|function| Ok(demangle::trimmed(function.name)?))?;
    /// assert_eq!(by_name.rows, [("bad".to_string(), 16), ("foo".to_string(), 16)]);
    /// # Ok::<(), Box<dyn std::error::Error>>(())
    /// ```
    pub fn sums_by<'t, K, F>(&'t self, mut key: F) -> Result<Sums<K>, Error>
    where
        K: Ord,
        F: FnMut(FunctionSymbol<'t>) -> Result<K, Error>,
    {
        let (functions, section_size) = self.0.functions(Global)?.into_list();
        let (mut rows, mut total) = (shim::Vec::new(Global), 0u64);
        for function in functions {
            total = total.checked_add(function.size).ok_or(Error::TooLarge)?;
            rows.push((key(function)?, function.size))?;
        }
        let mut rows = rows.into_std();
        rows.sort_unstable_by(|one, other| one.0.cmp(&other.0));
        rows.dedup_by(|next, kept| {
            let is_same = next.0 == kept.0;
            kept.1 += if is_same { next.1 } else { 0 };
            is_same
        });
        Ok(Sums { rows, total, section_size: section_size.unwrap_or(total) })
    }
}

/// The name of the first section of this name, as the file stores it: it lives as long as the file's bytes. Of a Mach-O or PE file the
/// name doesn't matter.
fn stored_name<'a>(file: &'a [u8], format: Format, name: &str) -> Result<Option<&'a str>, Error> {
    Ok(match format {
        Format::Elf32 { byte_order } => {
            let elf = elf32::parse(file, byte_order)?;
            elf.section_with_name(name)?.and_then(|section| section.name(&elf))
        }
        Format::Elf64 { byte_order } => {
            let elf = elf64::parse(file, byte_order)?;
            elf.section_with_name(name)?.and_then(|section| section.name(&elf))
        }
        Format::Macho | Format::PE | Format::Unknown => Some(""),
    })
}

/// An iterator over the function symbols of all sections: the answer of [`Tables::all_functions`].
#[must_use = "iterators are lazy and do nothing unless consumed"]
#[derive(Clone)]
pub struct AllFunctions<'a>(Rows<'a>);

/// The rows of an ELF file, which are read when the iterator reaches them, or those of the other formats, in their order.
#[derive(Clone)]
enum Rows<'a> {
    Elf(elf32::AllFunctions<'a>),
    Listed(alloc::vec::IntoIter<SectionFunction<'a>>),
}

impl<'a> AllFunctions<'a> {
    pub(crate) fn new(functions: functions_of::AllFunctions<'a>) -> Result<Self, Error> {
        let arranged = match functions {
            functions_of::AllFunctions::Elf(functions) => return Ok(AllFunctions(Rows::Elf(functions))),
            arranged => arranged,
        };
        let mut list = shim::Vec::new(Global);
        for function in arranged {
            list.push(function)?;
        }
        Ok(AllFunctions(Rows::Listed(list.into_std().into_iter())))
    }
}

impl<'a> Iterator for AllFunctions<'a> {
    type Item = SectionFunction<'a>;

    fn next(&mut self) -> Option<Self::Item> {
        match &mut self.0 {
            Rows::Elf(rows) => rows.next(),
            Rows::Listed(rows) => rows.next(),
        }
    }

    fn size_hint(&self) -> (usize, Option<usize>) {
        match &self.0 {
            Rows::Elf(rows) => rows.size_hint(),
            Rows::Listed(rows) => rows.size_hint(),
        }
    }
}

of_iterators!(AllFunctions);

/// How many bytes function symbols take, by keys: the answer of [`Tables::sums_by_key`] and [`Tables::sums_by`].
#[derive(Debug, Clone, PartialEq, Eq, Hash)]
#[non_exhaustive]
pub struct Sums<K> {
    /// Each key, and how many bytes its function symbols take, in the order of the keys. Of [`Tables::sums_by_key`] a byte of
    /// several counts once, of [`Tables::sums_by`] each symbol counts whole.
    pub rows: Vec<(K, u64)>,
    /// The sum of the rows in bytes. Of [`Tables::sums_by_key`] it is at most `section_size`, where the symbols lie in the section.
    pub total: u64,
    /// The size of the section in bytes; for [`Selection::All`] the same as `total`.
    pub section_size: u64,
}

debug_by_name!(Tables);

#[doc(hidden)]
impl From<ReadError> for Error {
    fn from(e: ReadError) -> Self {
        match e {
            ReadError::Refused(e) => Error::from(e),
            ReadError::OutOfMemory => Error::OutOfMemory,
            // Not of bytes in memory.
            ReadError::Unreadable => Error::Parse(ParseError::UnexpectedEof),
        }
    }
}
