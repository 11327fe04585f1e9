// From crates/test_formats/src/pe.rt, by tools/erase.

//! What the reader of PE finds in a file.

use crate::shim::String;
use crate::erased::test_formats::symbols::{address_of, functions_text, push_found, symbols_text};
use crate::erased::binfarce::pe::{Pe, Section, parse};
use crate::erased::binfarce::{ParseError, symbol_at};
use crate::shim::alloc::{AllocError, Global};

/// The answer of the reader.
pub fn answer(alloc: Global, what: &str, rest: &str, file: &[u8]) -> Result<String, ParseError> {
    let pe = parse(file)?;
    match what {
        "header" => Ok(String::formatted(alloc, format_args!("{:?}", pe.header()))?),
        "names" | "symbols" => {
            let (symbols, size) = pe.symbols(alloc)?;
            Ok(symbols_text(alloc, what, &symbols, size)?)
        }
        "functions" => functions_answer(alloc, &pe, rest),
        "sections" => Ok(sections_answer(alloc, &pe)?),
        "bytes" => bytes_answer(alloc, &pe, rest, file),
        _ => section_answer(alloc, &pe, rest),
    }
}

fn functions_answer(alloc: Global, pe: &Pe<'_>, addresses: &str) -> Result<String, ParseError> {
    let (functions, size) = pe.functions(alloc)?;
    let mut text = functions_text(alloc, &functions, size)?;
    for address in addresses.split(' ') {
        push_found(&mut text, symbol_at(&functions, address_of(address)))?;
    }
    Ok(text)
}

fn sections_answer(alloc: Global, pe: &Pe<'_>) -> Result<String, AllocError> {
    let mut text = String::new(alloc);
    for section in pe.sections() {
        match section {
            Ok(section) => push(&mut text, pe, section)?,
            Err(error) => writeln!(text, "{error}")?,
        }
    }
    Ok(text)
}

fn bytes_answer(
    alloc: Global,
    pe: &Pe<'_>,
    place: &str,
    file: &[u8],
) -> Result<String, ParseError> {
    match found(pe, place)? {
        Some(section) => {
            let (bytes, is_file) = (pe.section_bytes(&section), pe.data() == file);
            Ok(String::formatted(alloc, format_args!("{bytes:?} {is_file}"))?)
        }
        None => Ok(String::from_str(alloc, "none")?),
    }
}

fn section_answer(alloc: Global, pe: &Pe<'_>, place: &str) -> Result<String, ParseError> {
    let mut text = String::new(alloc);
    match found(pe, place)? {
        Some(section) => push(&mut text, pe, section)?,
        None => text.push_str("none")?,
    }
    Ok(text)
}

fn push(text: &mut String, pe: &Pe<'_>, section: Section<'_>) -> Result<(), AllocError> {
    let bytes = pe.section_bytes(&section).map(|bytes| bytes.len());
    writeln!(
        text,
        "{} {:x} {} {} {} {:?} {bytes:?}",
        section.name(),
        section.address(),
        section.virtual_size(),
        section.offset(),
        section.size(),
        section.range()
    )
}

fn found<'a>(pe: &Pe<'a>, which: &str) -> Result<Option<Section<'a>>, ParseError> {
    let is_first = which == "first";
    match which {
        "first" | "past" => pe.find_section(move |_| is_first),
        name => pe.section_with_name(name.trim_matches('"')),
    }
}
