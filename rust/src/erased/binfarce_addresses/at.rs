// From crates/binfarce_addresses/src/at.rt, by tools/erase.

//! Symbolizes addresses in an executable, a line for each.

use crate::shim::Vec;
use crate::erased::binfarce_addresses::counts::{Counts, Reply};
use crate::erased::binfarce_addresses::lookup::Lookup;
use crate::erased::binfarce_addresses::names::Names;
use crate::erased::binfarce_addresses::ranges::{AddressRange, Ranges};
use crate::erased::binfarce::FunctionSymbol;
use crate::erased::binfarce_tools::functions::{Functions, functions_of_file};
use crate::erased::binfarce_tools::list::{ListError, Sink};
use crate::erased::binfarce_tools::tables::Tables;
use crate::erased::binfarce_tools::writing::write_whole;
use crate::shim::alloc::{AllocError, Global};

/// The function symbols of a file, arranged for lookups by address.
///
/// Contracts speak of its entries, in the order of the listing, but the local symbols of an ELF file after the others.
pub struct Places<'a> {
    pub(crate) functions: Vec<FunctionSymbol<'a>>,
    ranges: Ranges,
}

/// What an address symbolizes to: the place of a function symbol, and the offset of the address into it.
pub type Found = (usize, u64);

impl<'a> Places<'a> {
    /// The places of a file's function symbols: of an ELF file those of the section.
    ///
    /// # Errors
    ///
    /// Those of `list`, except `Write`.
    pub fn of_file(alloc: Global, file: &'a [u8], section: &str) -> Result<Places<'a>, ListError> {
        let (functions, _) = functions_of_file(alloc, file, section)?;
        Ok(places_of(alloc, functions)?)
    }

    /// The places of the function symbols of a file's tables: for the selection that they were read for. The sections
    /// of an object file may share addresses (`Tables::shares_addresses`), so with all of them an address may symbolize
    /// to another section's symbol.
    ///
    /// # Errors
    ///
    /// As `of_file`.
    pub fn of_tables(alloc: Global, tables: &'a Tables<'_>) -> Result<Places<'a>, ListError> {
        let (functions, _) = tables.functions(alloc)?.into_list();
        Ok(places_of(alloc, functions)?)
    }

    /// How many function symbols there are.
    pub fn len(&self) -> usize {
        self.functions.len()
    }

    /// Whether there is no function symbol.
    pub fn is_empty(&self) -> bool {
        self.functions.is_empty()
    }

    /// The function symbol that an address symbolizes to by this lookup, and the offset of the address into it.
    pub fn find(&self, lookup: Lookup<'_>, address: u64) -> Option<(FunctionSymbol<'a>, u64)> {
        let (place, offset) = self.find_place(lookup, Some(address))?;
        Some((self.functions[place], offset))
    }

    // What an address symbolizes to; nothing without an address.
    #[cfg_attr(not(debug_assertions), inline(always))]
    pub(crate) fn find_place(&self, lookup: Lookup<'_>, address: Option<u64>) -> Option<Found> {
        self.find_in(lookup.is_return, lookup.in_file(address?))
    }

    // What an address in the file symbolizes to; nothing without an address.
    #[cfg_attr(not(debug_assertions), inline(always))]
    pub(crate) fn find_in(&self, is_return: bool, address: Option<u64>) -> Option<Found> {
        let address = address?;
        let place = self.place_for(is_return, address)?;
        let offset = address.saturating_sub(self.at(place).address);
        Some((place, offset))
    }

    // The place of the function symbol that an address in the file symbolizes to.
    #[cfg_attr(not(debug_assertions), inline(always))]
    fn place_for(&self, is_return: bool, address: u64) -> Option<usize> {
        let here = self.place_of(address);
        if !is_return {
            return here;
        }
        let before = self.place_of(address.saturating_sub(1));
        before.or(here)
    }

    // The place of the function symbol that holds an address in the file.
    #[cfg_attr(not(debug_assertions), inline(always))]
    fn place_of(&self, address: u64) -> Option<usize> {
        self.ranges.find(address)
    }

    // The function symbol at a place.
    #[cfg_attr(not(debug_assertions), inline(always))]
    pub(crate) fn at(&self, place: usize) -> FunctionSymbol<'a> {
        self.functions[place]
    }

    /// Whether a function symbol has this name, as it is stored.
    pub fn has(&self, name: &[u8]) -> bool {
        self.functions
            .iter()
            .any(|function| function.name.as_bytes() == name)
    }

    /// Appends the line of an address to the text: the address, the symbol that it symbolizes to by this lookup, and
    /// the offset of the address into it; or `??` if there is none. Returns whether there is one.
    ///
    /// # Errors
    ///
    /// `AllocError` if an allocation failed: the text is then unspecified.
    pub fn push_line(
        &self,
        alloc: Global,
        text: &mut Vec<u8>,
        lookup: Lookup<'_>,
        address: u64,
    ) -> Result<bool, AllocError> {
        let mut names = Names::new(alloc, self, lookup, 0)?;
        names.push_address_line(text, address)
    }
}

// The places of function symbols.
fn places_of(alloc: Global, listed: Functions<'_>) -> Result<Places<'_>, AllocError> {
    let mut functions = Vec::new(alloc);
    let mut local = Vec::new(alloc);
    for function in listed.all {
        if is_local(function.info) {
            local.push(function.function)?;
        } else {
            functions.push(function.function)?;
        }
    }
    functions.extend_from_slice(&local)?;
    let ranges = ranges_of(alloc, &functions)?;
    let ranges = Ranges::new(alloc, &ranges)?;
    Ok(Places { functions, ranges })
}

// Whether a symbol of an ELF file with this info is local: its binding is `STB_LOCAL`.
fn is_local(info: u8) -> bool {
    0 < info && info < 16
}

// The ranges of function symbols.
fn ranges_of(
    alloc: Global,
    functions: &[FunctionSymbol<'_>],
) -> Result<Vec<AddressRange>, AllocError> {
    let mut ranges = Vec::with_capacity(alloc, functions.len())?;
    for function in functions {
        ranges.push(AddressRange {
            address: function.address,
            size: function.size,
        })?;
    }
    Ok(ranges)
}

/// Symbolizes addresses in an executable: a line for each, in their order.
///
/// The format and the section are as in `list`. A line is `{address:016x} {name}+0x{offset:x}`: the address, the
/// readable name of its function symbol, and the offset into it. With a base, the address in the file is as far from
/// `linked` as the address is from the base. For a return address the one before it is looked up, but the offset is that
/// of the address. A symbol holds the addresses of its range, or if its size is 0 its own. If several hold an address, it
/// is the one of greatest address; if several have that, the first in the order of the listing, in an ELF file the first
/// that isn't local, if there is one. The line is
/// `{address:016x} ??` for an address that none holds, and for one below the base, or, where `size` bytes are loaded from
/// there, past them. Returns how many addresses there are, and how many of them a symbol holds.
///
/// # Errors
///
/// Those of `list`. Only after `Write` a beginning of the lines may be written.
pub fn at<S: Sink>(
    alloc: Global,
    file: &[u8],
    section: &str,
    lookup: Lookup<'_>,
    addresses: &[u64],
    out: &mut S,
) -> Result<Counts, ListError> {
    at_tables(alloc, &Tables::whole(file, section), lookup, addresses, out)
}

/// As `at`, from the tables of a file: for the selection that they were read for.
///
/// # Errors
///
/// As `at`.
pub fn at_tables<S: Sink>(
    alloc: Global,
    tables: &Tables<'_>,
    lookup: Lookup<'_>,
    addresses: &[u64],
    out: &mut S,
) -> Result<Counts, ListError> {
    let places = Places::of_tables(alloc, tables)?;
    write_lines(alloc, &places, lookup, addresses, out)
}

/// Writes a line for each address, and counts them, as `at` does, by the places of a file.
///
/// # Errors
///
/// `OutOfMemory` if an allocation failed; `Write` if a write failed, which alone can leave a beginning of the
/// lines written.
pub fn write_lines<S: Sink>(
    alloc: Global,
    places: &Places<'_>,
    lookup: Lookup<'_>,
    addresses: &[u64],
    out: &mut S,
) -> Result<Counts, ListError> {
    let mut names = Names::with_room(alloc, places, lookup)?;
    let mut text = Vec::new(alloc);
    let mut counts = Counts::new();
    for address in addresses {
        let held = names.push_address_line(&mut text, *address)?;
        counts.add(Reply::Held(held));
    }
    write_whole(out, text.as_slice())?;
    Ok(counts)
}
