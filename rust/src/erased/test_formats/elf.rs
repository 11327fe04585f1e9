// From crates/test_formats/src/elf.rt, by tools/erase.

//! What the readers of ELF find in a file.

use crate::shim::{CollectIn, String, Vec};
use crate::erased::test_formats::symbols::{address_of, functions_text, push_found, symbols_text};
use crate::erased::binfarce::{FunctionSymbol, ParseError, elf32, elf64};
use crate::shim::alloc::{AllocError, Global};
use core::ops::Range;
use crate::erased::test_samples::elf::Layout;

/// The answer of the reader of 32 bits.
pub fn answer_32(
    alloc: Global,
    layout: Layout,
    what: &str,
    rest: &str,
    file: &[u8],
) -> Result<String, ParseError> {
    let elf = elf32::parse(file, layout.order())?;
    match what {
        "header" => Ok(String::formatted(alloc, format_args!("{:?}", elf.header()))?),
        "names" | "symbols" => {
            let (symbols, size) = elf.symbols(alloc, rest)?;
            Ok(symbols_text(alloc, what, &symbols, size)?)
        }
        "functions" => functions_answer_32(alloc, &elf, rest),
        "sections" => Ok(sections_answer_32(alloc, &elf)?),
        "bytes" => bytes_answer_32(alloc, &elf, rest, file),
        _ => section_answer_32(alloc, &elf, rest),
    }
}

fn functions_answer_32(
    alloc: Global,
    elf: &elf32::Elf32<'_>,
    rest: &str,
) -> Result<String, ParseError> {
    let (name, addresses) = rest.split_once(' ').unwrap_or((rest, ""));
    let (functions, size) = elf.functions(name)?;
    let functions: Vec<FunctionSymbol<'_>> = functions.collect_in(alloc)?;
    let mut text = functions_text(alloc, &functions, size)?;
    for address in addresses.split(' ') {
        let (functions, _) = elf.functions(name)?;
        push_found(&mut text, functions.symbol_at(address_of(address)))?;
    }
    Ok(text)
}

fn sections_answer_32(alloc: Global, elf: &elf32::Elf32<'_>) -> Result<String, AllocError> {
    let mut text = String::new(alloc);
    for section in elf.sections() {
        match section {
            Ok(section) => push_32(&mut text, elf, section)?,
            Err(error) => writeln!(text, "{error}")?,
        }
    }
    Ok(text)
}

fn bytes_answer_32(
    alloc: Global,
    elf: &elf32::Elf32<'_>,
    place: &str,
    file: &[u8],
) -> Result<String, ParseError> {
    match found_32(elf, place)? {
        Some(section) => {
            let (bytes, is_file) = (elf.section_bytes(&section), elf.data() == file);
            Ok(String::formatted(alloc, format_args!("{bytes:?} {is_file}"))?)
        }
        None => Ok(String::from_str(alloc, "none")?),
    }
}

fn section_answer_32(
    alloc: Global,
    elf: &elf32::Elf32<'_>,
    place: &str,
) -> Result<String, ParseError> {
    let mut text = String::new(alloc);
    match found_32(elf, place)? {
        Some(section) => push_32(&mut text, elf, section)?,
        None => text.push_str("none")?,
    }
    Ok(text)
}

fn push_32(
    text: &mut String,
    elf: &elf32::Elf32<'_>,
    section: elf32::Section,
) -> Result<(), AllocError> {
    let (kind, address) = (section.section_type(), section.address());
    let bytes = elf.section_bytes(&section).map(|bytes| bytes.len());
    writeln!(
        text,
        "{:?} {:?} {}, type {kind} at {address:x}, {bytes:?}",
        section.name(elf),
        section.range(),
        section.entries()
    )
}

fn found_32(elf: &elf32::Elf32<'_>, which: &str) -> Result<Option<elf32::Section>, ParseError> {
    if which == "first" || which == "past" || which.parse::<usize>().is_ok() {
        elf.find_section(|section| is_wanted(which, section.range()))
    } else {
        elf.section_with_name(which.trim_matches('"'))
    }
}

/// The answer of the reader of 64 bits.
pub fn answer_64(
    alloc: Global,
    layout: Layout,
    what: &str,
    rest: &str,
    file: &[u8],
) -> Result<String, ParseError> {
    let elf = elf64::parse(file, layout.order())?;
    match what {
        "header" => Ok(String::formatted(alloc, format_args!("{:?}", elf.header()))?),
        "names" | "symbols" => {
            let (symbols, size) = elf.symbols(alloc, rest)?;
            Ok(symbols_text(alloc, what, &symbols, size)?)
        }
        "functions" => functions_answer_64(alloc, &elf, rest),
        "sections" => Ok(sections_answer_64(alloc, &elf)?),
        "bytes" => bytes_answer_64(alloc, &elf, rest, file),
        _ => section_answer_64(alloc, &elf, rest),
    }
}

fn functions_answer_64(
    alloc: Global,
    elf: &elf64::Elf64<'_>,
    rest: &str,
) -> Result<String, ParseError> {
    let (name, addresses) = rest.split_once(' ').unwrap_or((rest, ""));
    let (functions, size) = elf.functions(name)?;
    let functions: Vec<FunctionSymbol<'_>> = functions.collect_in(alloc)?;
    let mut text = functions_text(alloc, &functions, size)?;
    for address in addresses.split(' ') {
        let (functions, _) = elf.functions(name)?;
        push_found(&mut text, functions.symbol_at(address_of(address)))?;
    }
    Ok(text)
}

fn sections_answer_64(alloc: Global, elf: &elf64::Elf64<'_>) -> Result<String, AllocError> {
    let mut text = String::new(alloc);
    for section in elf.sections() {
        match section {
            Ok(section) => push_64(&mut text, elf, section)?,
            Err(error) => writeln!(text, "{error}")?,
        }
    }
    Ok(text)
}

fn bytes_answer_64(
    alloc: Global,
    elf: &elf64::Elf64<'_>,
    place: &str,
    file: &[u8],
) -> Result<String, ParseError> {
    match found_64(elf, place)? {
        Some(section) => {
            let (bytes, is_file) = (elf.section_bytes(&section), elf.data() == file);
            Ok(String::formatted(alloc, format_args!("{bytes:?} {is_file}"))?)
        }
        None => Ok(String::from_str(alloc, "none")?),
    }
}

fn section_answer_64(
    alloc: Global,
    elf: &elf64::Elf64<'_>,
    place: &str,
) -> Result<String, ParseError> {
    let mut text = String::new(alloc);
    match found_64(elf, place)? {
        Some(section) => push_64(&mut text, elf, section)?,
        None => text.push_str("none")?,
    }
    Ok(text)
}

fn push_64(
    text: &mut String,
    elf: &elf64::Elf64<'_>,
    section: elf64::Section,
) -> Result<(), AllocError> {
    let (kind, address) = (section.section_type(), section.address());
    let bytes = elf.section_bytes(&section).map(|bytes| bytes.len());
    writeln!(
        text,
        "{:?} {:?} {}, type {kind} at {address:x}, {bytes:?}",
        section.name(elf),
        section.range(),
        section.entries()
    )
}

fn found_64(elf: &elf64::Elf64<'_>, which: &str) -> Result<Option<elf64::Section>, ParseError> {
    if which == "first" || which == "past" || which.parse::<usize>().is_ok() {
        elf.find_section(|section| is_wanted(which, section.range()))
    } else {
        elf.section_with_name(which.trim_matches('"'))
    }
}

// Whether a section with this range is the `first` one, or the one at this offset. None is `past` the last one.
fn is_wanted(which: &str, range: Result<Range<usize>, ParseError>) -> bool {
    match (which.parse::<usize>(), range) {
        (Ok(offset), Ok(range)) => range.start == offset,
        _ => which == "first",
    }
}
