// From crates/test_formats/src/symbols.rt, by tools/erase.

//! Symbols in words.

use crate::shim::{String, Vec};
use crate::erased::binfarce::FunctionSymbol;
use crate::erased::binfarce::demangle::SymbolData;
use crate::shim::alloc::{AllocError, Global};

/// An ELF file with functions of the names in this list, `NAME,NAME)`; no bytes where it can't be laid out.
pub fn file_of_names(alloc: Global, list: &str) -> Result<Vec<u8>, AllocError> {
    let mut names = Vec::new(alloc);
    for name in list.trim_end_matches(')').split(',') {
        if !name.is_empty() {
            names.push(name)?;
        }
    }
    Ok(crate::erased::test_image_samples::file_of(alloc, &names).unwrap_or(Vec::new(alloc)))
}

/// The address and the size of each symbol, and its name: the trimmed one, or for the question `names` both, the kind
/// and the crate. Then the section's size.
pub fn symbols_text(
    alloc: Global,
    what: &str,
    symbols: &[SymbolData],
    size: u64,
) -> Result<String, AllocError> {
    let mut text = String::new(alloc);
    for symbol in symbols {
        let name = &symbol.name;
        write!(text, "{:x} {} ", symbol.address, symbol.size)?;
        if what == "names" {
            push_name(&mut text, name.complete.as_str())?;
            text.push(' ')?;
        }
        push_name(&mut text, name.trimmed.as_str())?;
        if what == "names" {
            write!(text, " {:?} {:?}", name.kind, name.crate_name)?;
        }
        text.push_str(", ")?;
    }
    write!(text, "text {size}")?;
    Ok(text)
}

// A name, or the length of a long one.
fn push_name(text: &mut String, name: &str) -> Result<(), AllocError> {
    if name.len() < 100 {
        text.push_str(name)
    } else {
        write!(text, "[{} bytes]", name.len())
    }
}

/// The address, the size and the stored name of each function symbol, and the section's size.
pub fn functions_text(
    alloc: Global,
    functions: &[FunctionSymbol<'_>],
    size: u64,
) -> Result<String, AllocError> {
    let mut text = String::new(alloc);
    for function in functions {
        write!(
            text,
            "{:x} {} {}, ",
            function.address, function.size, function.name
        )?;
    }
    write!(text, "text {size}")?;
    Ok(text)
}

/// The address that hexadecimal digits write.
pub fn address_of(digits: &str) -> u64 {
    u64::from_str_radix(digits, 16).unwrap_or(0)
}

/// The name of the function symbol that an address symbolizes to, or a point.
pub fn push_found(text: &mut String, found: Option<FunctionSymbol<'_>>) -> Result<(), AllocError> {
    text.push(' ')?;
    text.push_str(found.map_or(".", |it| it.name))
}
