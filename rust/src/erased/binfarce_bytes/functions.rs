// From crates/binfarce_bytes/src/functions.rt, by tools/erase.

//! The function symbols that a file stores, and the one that an address symbolizes to.

/// A function symbol as a file stores it. Its name is a slice of the file's bytes, and still mangled.
#[derive(Debug, Clone, Copy)]
#[non_exhaustive]
pub struct FunctionSymbol<'a> {
    /// The name as it is stored.
    pub name: &'a str,
    /// The address, as the file stores it; in a PE file the offset in the section, and among the functions of all
    /// sections a virtual address.
    pub address: u64,
    /// The size in bytes.
    pub size: u64,
}

/// A function symbol, and its section.
#[derive(Debug, Clone, Copy)]
#[non_exhaustive]
pub struct SectionFunction<'a> {
    /// The section's number: in an ELF file the index of its section header, in Mach-O and PE files counted from 1.
    pub section: u32,
    /// In an ELF file the symbol's binding, in the high four bits, and its type (`st_info`); 0 in other files.
    pub info: u8,
    /// The symbol's version in an ELF file: its row in `.gnu.version`, whose high bit says that the symbol is hidden; 0
    /// if there is none, and in other files.
    pub version: u16,
    /// The function symbol.
    pub function: FunctionSymbol<'a>,
}

/// Which function symbols of a file are taken.
#[derive(Debug, Clone, Copy)]
pub enum Selection<'a> {
    /// Those of a section of an ELF file; of a Mach-O or PE file those of the text.
    Section(&'a str),
    /// Those of all sections.
    All,
}

/// The function symbol that an address symbolizes to: of those in the list whose range holds it the one of greatest
/// address, and of several the first. `None` if no range holds it.
///
/// A range begins at the symbol's address and has its size in bytes; a symbol of size 0 holds its own address alone.
/// The address is of the kind that the symbols have. The whole list is searched; nothing is allocated.
pub fn symbol_at<'a>(functions: &[FunctionSymbol<'a>], address: u64) -> Option<FunctionSymbol<'a>> {
    let mut found = None;
    for function in functions.iter().copied() {
        found = found_with(found, function, address);
    }
    found
}

/// The one that the address symbolizes to, of the symbol found so far and the next one.
#[cfg_attr(not(debug_assertions), inline(always))]
pub fn found_with<'a>(
    found: Option<FunctionSymbol<'a>>,
    function: FunctionSymbol<'a>,
    address: u64,
) -> Option<FunctionSymbol<'a>> {
    if !holds(function, address) {
        return found;
    }
    match found {
        None => Some(function),
        Some(first) => Some(higher_of(first, function)),
    }
}

// Whether its range holds the address. The end of the range may lie past 64 bits.
#[cfg_attr(not(debug_assertions), inline(always))]
fn holds(function: FunctionSymbol<'_>, address: u64) -> bool {
    function.address <= address && address - function.address < function.size.max(1)
}

// The first, or the other one where that has a greater address.
#[cfg_attr(not(debug_assertions), inline(always))]
fn higher_of<'a>(first: FunctionSymbol<'a>, other: FunctionSymbol<'a>) -> FunctionSymbol<'a> {
    if other.address > first.address {
        other
    } else {
        first
    }
}
