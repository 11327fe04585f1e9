//! The function symbol at an address, in one file or several.

use crate::FunctionSymbol;
use crate::any::known_format;
use crate::erased::binfarce_addresses::at::Places;
use crate::erased::binfarce_addresses::lookup::Lookup;
use crate::erased::binfarce_addresses::ranges::{AddressRange, Ranges};
use crate::erased::binfarce_logs::maps::base_of;
use crate::erased::binfarce_rows::json::Form;
use crate::erased::binfarce_tables::loading::{self, LoadAddress};
use crate::error::{Error, OutOfMemory};
use crate::shim;
use crate::shim::alloc::{AllocError, Global};
use crate::tables::Tables;
use core::cmp::Reverse;
use core::ops::Range;

/// Finds the function symbol at an address by a binary search. It borrows the tables, or [owns](Symbolizer::into_owned) all that
/// it needs of them; it is `Send` and `Sync`, and a lookup allocates nothing.
///
/// # Examples
///
/// ```
/// use binfarce::{Selection, Symbolizer, SymbolTable, Tables};
///
/// # let path = concat!(env!("CARGO_MANIFEST_DIR"), "/samples/elf64-little.bin");
/// let file = std::fs::read(path)?;
/// let tables = Tables::new(&file, Selection::All, SymbolTable::Symtab)?;
/// // The program, which says that it is loaded at 0, is loaded at 0x5555_5555_4000.
/// let symbolizer = Symbolizer::new(&tables)?.with_base(0x5555_5555_4000);
/// let (function, offset) = symbolizer.find(0x5555_5555_5004).unwrap();
/// assert_eq!((binfarce::demangle::trimmed(function.name)?.as_str(), offset), ("foo", 4));
/// // A call that is the function's last instruction returns to its end.
/// assert_eq!(symbolizer.find(0x5555_5555_5010).unwrap().0.name, "bad");
/// assert_eq!(symbolizer.find_return(0x5555_5555_5010), Some((function, 16)));
/// # Ok::<(), Box<dyn std::error::Error>>(())
/// ```
pub struct Symbolizer<'a> {
    functions: Arranged<'a>,
    base: Option<u64>,
    linked: u64,
}

/// Function symbols, arranged for lookups by address.
enum Arranged<'a> {
    Borrowed(Places<'a>),
    Owned { names: shim::String, rows: shim::Vec<OwnedRow>, ranges: Ranges },
}

/// A function symbol, and where its name is in the text of all names.
struct OwnedRow {
    name: Range<usize>,
    address: u64,
    size: u64,
}

/// Copies names. Those that end alike may share their bytes in a file, and do so in the copy: it has no byte twice, so it isn't
/// larger than the file, whatever the number of symbols.
fn copied(functions: &[FunctionSymbol<'_>]) -> Result<(shim::String, shim::Vec<OwnedRow>), AllocError> {
    let mut order = shim::Vec::with_capacity(Global, functions.len())?;
    let mut rows = shim::Vec::with_capacity(Global, functions.len())?;
    for (place, FunctionSymbol { name, address, size }) in functions.iter().copied().enumerate() {
        order.push_reserved((name.as_ptr() as usize, Reverse(name.len()), place));
        rows.push_reserved(OwnedRow { name: 0..0, address, size });
    }
    order.sort_unstable();
    let mut names = shim::String::new(Global);
    // Where the name that was copied last ends in memory.
    let mut last = 0;
    for (start, Reverse(length), place) in order {
        // Of a name that begins within the one before and doesn't end with it, all is copied.
        if start + length > last {
            names.push_str(functions[place].name)?;
            last = start + length;
        }
        let first = names.len() - (last - start);
        rows[place].name = first..first + length;
    }
    Ok((names, rows))
}

impl<'a> Symbolizer<'a> {
    /// Arranges the function symbols of a file. Addresses are the file's own, until a base is set.
    ///
    /// # Errors
    ///
    /// Those of [`Tables::functions`].
    pub fn new(tables: &'a Tables<'_>) -> Result<Self, Error> {
        Ok(Symbolizer { functions: Arranged::Borrowed(Places::of_tables(Global, &tables.0)?), base: None, linked: 0 })
    }

    /// Sets where the file is loaded, as [`mapped_at`] finds it for a running program. An address is then as far behind the base
    /// as the address in the file is behind [the one that the file says it is loaded at](Symbolizer::with_linked), 0 if none is
    /// set: that of a position-independent executable and of a shared object.
    #[must_use]
    pub fn with_base(self, base: u64) -> Self {
        Symbolizer { base: Some(base), ..self }
    }

    /// Sets the address that the file itself says it is loaded at: that of [`load_address`] and
    /// [`read_load_address`](crate#functions).
    ///
    /// # Examples
    ///
    /// A program that isn't position-independent, and runs at the addresses that its file has:
    ///
    /// ```
    /// use binfarce::{Selection, SymbolTable, Symbolizer, Tables};
    ///
    /// # let path = concat!(env!("CARGO_MANIFEST_DIR"), "/samples/elf64-little.bin");
    /// let file = std::fs::read(path)?;
    /// let tables = Tables::new(&file, Selection::All, SymbolTable::Symtab)?;
    /// let symbolizer = Symbolizer::new(&tables)?.with_linked(0x1000).with_base(0x1000);
    /// assert_eq!(symbolizer.find(0x1014).map(|(function, offset)| (function.name, offset)), Some(("bad", 4)));
    /// # Ok::<(), Box<dyn std::error::Error>>(())
    /// ```
    #[must_use]
    pub fn with_linked(self, linked: u64) -> Self {
        Symbolizer { linked, ..self }
    }

    /// Copies what it needs of the tables, so that they needn't be kept: their names, addresses and sizes.
    ///
    /// # Errors
    ///
    /// [`OutOfMemory`] if an allocation failed.
    ///
    /// # Examples
    ///
    /// A symbolizer for all threads, which a panic hook may ask:
    ///
    /// ```
    /// use binfarce::{Error, Selection, SymbolTable, Symbolizer, Tables};
    /// use std::sync::OnceLock;
    ///
    /// static FUNCTIONS: OnceLock<Symbolizer<'static>> = OnceLock::new();
    ///
    /// fn symbolizer(file: &[u8]) -> Result<Symbolizer<'static>, Error> {
    ///     let tables = Tables::new(file, Selection::All, SymbolTable::Symtab)?;
    ///     Ok(Symbolizer::new(&tables)?.into_owned()?)
    /// }
    ///
    /// # let path = concat!(env!("CARGO_MANIFEST_DIR"), "/samples/elf64-little.bin");
    /// let functions = symbolizer(&std::fs::read(path)?)?;
    /// let functions = FUNCTIONS.get_or_init(|| functions);
    /// assert_eq!(functions.find(0x1014).map(|(function, offset)| (function.name, offset)), Some(("bad", 4)));
    /// # Ok::<(), Box<dyn std::error::Error>>(())
    /// ```
    pub fn into_owned(self) -> Result<Symbolizer<'static>, OutOfMemory> {
        let functions = match self.functions {
            Arranged::Owned { names, rows, ranges } => Arranged::Owned { names, rows, ranges },
            Arranged::Borrowed(places) => {
                let functions = &places.functions;
                let (names, rows) = copied(functions)?;
                let mut ranges = shim::Vec::with_capacity(Global, rows.len())?;
                for OwnedRow { address, size, .. } in &rows {
                    ranges.push_reserved(AddressRange { address: *address, size: *size });
                }
                Arranged::Owned { names, rows, ranges: Ranges::new(Global, &ranges)? }
            }
        };
        Ok(Symbolizer { functions, base: self.base, linked: self.linked })
    }

    /// Returns the function symbol at an address, and the offset into it. Of several that hold the address it is the one of
    /// greatest address, and of several there the first, in an ELF file the first that isn't local if there is one. `None` if none holds it, and for an address below the base.
    ///
    /// # Examples
    ///
    /// ```
    /// use binfarce::{Selection, SymbolTable, Symbolizer, Tables};
    ///
    /// # let path = concat!(env!("CARGO_MANIFEST_DIR"), "/samples/elf64-little.bin");
    /// let file = std::fs::read(path)?;
    /// let tables = Tables::new(&file, Selection::All, SymbolTable::Symtab)?;
    /// let symbolizer = Symbolizer::new(&tables)?;
    /// assert_eq!(symbolizer.find(0x1014).map(|(function, offset)| (function.name, offset)), Some(("bad", 4)));
    /// assert_eq!(symbolizer.find(0x2000), None);
    /// # Ok::<(), Box<dyn std::error::Error>>(())
    /// ```
    #[must_use]
    pub fn find(&self, address: u64) -> Option<(FunctionSymbol<'_>, u64)> {
        self.look_up(address, false)
    }

    /// Returns the function symbol whose call has this return address, and the offset of the return address into it: the
    /// symbol at the address before, since a call that doesn't return may be the last instruction of its function. If there
    /// is none, the symbol at the address: a signal may have interrupted its first instruction.
    ///
    /// # Examples
    ///
    /// ```
    /// use binfarce::{Selection, SymbolTable, Symbolizer, Tables};
    ///
    /// # let path = concat!(env!("CARGO_MANIFEST_DIR"), "/samples/elf64-little.bin");
    /// let file = std::fs::read(path)?;
    /// let tables = Tables::new(&file, Selection::All, SymbolTable::Symtab)?;
    /// let symbolizer = Symbolizer::new(&tables)?;
    /// // `foo` ends at 0x1010, and its last instruction may be the call.
    /// assert_eq!(symbolizer.find_return(0x1010).map(|(function, _)| function.name), Some("_ZN3foo3barE"));
    /// // A signal came before its first instruction.
    /// assert_eq!(symbolizer.find_return(0x1000).map(|(_, offset)| offset), Some(0));
    /// # Ok::<(), Box<dyn std::error::Error>>(())
    /// ```
    #[must_use]
    pub fn find_return(&self, address: u64) -> Option<(FunctionSymbol<'_>, u64)> {
        self.look_up(address, true)
    }

    /// Finds an address in several files of a process, such as a program and its shared objects, each with its base: in the
    /// first one with a function symbol that holds it. Returns the place of this file beside what [`Symbolizer::find`] returns.
    ///
    /// # Examples
    ///
    /// ```
    /// use binfarce::{Selection, SymbolTable, Symbolizer, Tables};
    ///
    /// # let path = concat!(env!("CARGO_MANIFEST_DIR"), "/samples/elf64-little.bin");
    /// let file = std::fs::read(path)?;
    /// let tables = Tables::new(&file, Selection::All, SymbolTable::Symtab)?;
    /// let loaded = [0x5555_0000, 0x7f00_0000].map(|base| Symbolizer::new(&tables).map(|it| it.with_base(base)));
    /// let loaded = loaded.into_iter().collect::<Result<Vec<_>, _>>()?;
    /// let found = Symbolizer::find_among(&loaded, 0x7f00_1014);
    /// assert_eq!(found.map(|(file, function, offset)| (file, function.name, offset)), Some((1, "bad", 4)));
    /// # Ok::<(), Box<dyn std::error::Error>>(())
    /// ```
    #[must_use]
    pub fn find_among<'s>(files: &'s [Symbolizer<'_>], address: u64) -> Option<(usize, FunctionSymbol<'s>, u64)> {
        look_up_among(files, address, false)
    }

    /// The same of a return address, by [`Symbolizer::find_return`].
    #[must_use]
    pub fn find_return_among<'s>(
        files: &'s [Symbolizer<'_>],
        address: u64,
    ) -> Option<(usize, FunctionSymbol<'s>, u64)> {
        look_up_among(files, address, true)
    }

    fn look_up(&self, address: u64, is_return: bool) -> Option<(FunctionSymbol<'_>, u64)> {
        let lookup = Lookup {
            base: self.base,
            linked: self.linked,
            size: None,
            origin: 0,
            is_return,
            form: Form::Lines,
            path: &[],
        };
        match &self.functions {
            Arranged::Borrowed(places) => places.find(lookup, address),
            Arranged::Owned { names, rows, ranges } => {
                // As `Places::find` does it.
                let address = lookup.in_file(address)?;
                let before = if is_return { ranges.find(address.saturating_sub(1)) } else { None };
                let place = before.or_else(|| ranges.find(address))?;
                let OwnedRow { name, address: first, size } = &rows[place];
                let function = FunctionSymbol { name: &names[name.clone()], address: *first, size: *size };
                Some((function, address.saturating_sub(*first)))
            }
        }
    }
}

fn look_up_among<'s>(
    files: &'s [Symbolizer<'_>],
    address: u64,
    is_return: bool,
) -> Option<(usize, FunctionSymbol<'s>, u64)> {
    files.iter().enumerate().find_map(|(place, file)| {
        let (function, offset) = file.look_up(address, is_return)?;
        Some((place, function, offset))
    })
}

debug_by_name!(Symbolizer);

/// Returns where a file says that it is loaded, unless the loader chooses another address: of ELF the page of 4096 bytes of its
/// lowest loaded segment, and its first code segment; of Mach-O the address of `__TEXT`, of PE its image base. `None` if there
/// is none, as in an object file.
///
/// # Errors
///
/// [`Error::UnknownFormat`]; [`Error::Parse`] where the file is too short for what states it, and for a bad Mach-O load command
/// before that; [`Error::OutOfMemory`] if an allocation failed.
///
/// # Examples
///
/// ```
/// // No segment is loaded of this file.
/// # let path = concat!(env!("CARGO_MANIFEST_DIR"), "/samples/elf64-little.bin");
/// assert_eq!(binfarce::load_address(&std::fs::read(path)?)?, None);
/// # Ok::<(), Box<dyn std::error::Error>>(())
/// ```
pub fn load_address(file: &[u8]) -> Result<Option<LoadAddress>, Error> {
    Ok(loading::read_load_address(Global, &file, &mut (), known_format(file)?)?)
}

/// Returns where a file is loaded by a text in the form of `/proc/PID/maps`, if [`load_address`] returns this of it: where the
/// mappings of its code have it, or of a file without code the lowest address of its mappings. A mapping is one of the file if its
/// path ends with this path, after a `/` if there is one; if none is, those are whose paths end so with the name behind the last `/`.
/// A ` (deleted)` after a path isn't part of it, nor is a carriage return. `None` if no line maps the file, where its code is
/// at several places, and if none says where it is: pages may have 4, 16 or 64 KiB. Other lines may stand between, and words of a log before a mapping in its line.
///
/// # Examples
///
/// ```
/// use binfarce::{load_address, mapped_at};
///
/// # let path = concat!(env!("CARGO_MANIFEST_DIR"), "/samples/elf64-little.bin");
/// // No segment of this file is loaded, and nothing says where its code is.
/// let loaded = load_address(&std::fs::read(path)?)?;
/// let maps = "\
/// 563261dae000-563261daf000 r--p 00000000 fe:00 10961329   /tmp/app
/// 563261db0000-563261db1000 r-xp 00000000 fe:00 10961329   /tmp/app
/// ";
/// assert_eq!(mapped_at(maps.as_bytes(), "app", loaded), Some(0x5632_61da_e000));
/// assert_eq!(mapped_at(maps.as_bytes(), "pp", loaded), None);
/// # Ok::<(), Box<dyn std::error::Error>>(())
/// ```
#[must_use]
pub fn mapped_at(maps: &[u8], path: &str, loaded: Option<LoadAddress>) -> Option<u64> {
    base_of(maps, path.as_bytes(), loaded.unwrap_or(LoadAddress { address: 0, code: None })).ok()
}

#[test]
fn a_mapping_to_read_a_file_is_not_its_base() {
    use crate::CodeSegment;
    let code = CodeSegment { address: 0x2970, offset: 0x970, size: 0x370, memory_size: 0x370, align: 0x1000 };
    let maps = b"\
563261d00000-563261d01000 r--p 00000000 fe:00 10961329   /tmp/app
563261dae000-563261daf000 r--p 00000000 fe:00 10961329   /tmp/app
563261db0000-563261db1000 r-xp 00000000 fe:00 10961329   /tmp/app
";
    assert_eq!(mapped_at(maps, "app", Some(LoadAddress { address: 0, code: Some(code) })), Some(0x5632_61da_e000));
}

#[test]
fn names_are_copied_once() {
    let text = "_ZN3foo3barE|main|é";
    let names =
        [&text[4..12], &text[..12], "apart", &text[13..17], &text[..12], &text[12..12], &text[18..], &text[11..12]];
    let functions = names.map(|name| FunctionSymbol { name, address: 1, size: 2 });
    let (all, rows) = copied(&functions).unwrap();
    assert!(rows.iter().map(|row| &all[row.name.clone()]).eq(names));
    assert_eq!(all.len(), "_ZN3foo3barE".len() + "apart".len() + "main".len() + "é".len());
    // A name that overlaps and ends later, which no reader gives.
    let names = [&text[..6], &text[4..12]];
    let functions = names.map(|name| FunctionSymbol { name, address: 1, size: 2 });
    let (all, rows) = copied(&functions).unwrap();
    assert!(rows.iter().map(|row| &all[row.name.clone()]).eq(names));
}
