// From crates/test_formats/src/large.rt, by tools/erase.

//! Files of over 1 MiB, whose listings have over 64 KiB and over 1,000 lines: neither is a reason to give up.

use crate::shim::{String, Vec};
use crate::erased::test_formats::texts::text_of_section;
use crate::erased::binfarce::demangle::SymbolData;
use crate::erased::binfarce::{ParseError, macho};
use crate::erased::binfarce_bytes::sizes::{RowAddress, arrange};
use crate::erased::binfarce_image::image::{ElfLayout, lay_out};
use crate::shim::alloc::{AllocError, Global};
use crate::erased::test_image_samples::{LAYOUTS, function, image};
use crate::erased::test_samples::cases::file_of;

// How many functions a file has. Each has the name `a` and 16 bytes, and begins where the one before ends.
const FUNCTIONS: u32 = 70_000;

/// What follows the lines of all functions in the listing of a file in this format, or `otherwise`; of PE also the
/// report.
pub fn listed(alloc: Global, format: &str) -> Result<String, AllocError> {
    let mut text = String::new(alloc);
    match format {
        "elf" => {
            let mut rows = Vec::new(alloc);
            for row in 0..FUNCTIONS {
                rows.push(function(1, 0x1000 + 16 * row))?;
            }
            let image = image(alloc, b"\0a\0", rows.as_slice())?;
            for (layout, _) in LAYOUTS {
                let file = lay_out(alloc, &image, layout).unwrap_or(Vec::new(alloc));
                push_listed(alloc, &mut text, &file, 0x1000)?;
            }
        }
        "macho" => {
            let mut addresses = Vec::new(alloc);
            for row in 0..FUNCTIONS {
                addresses.push(0x1000 + 16 * u64::from(row))?;
            }
            let file = macho_file(alloc, 16 * FUNCTIONS, &addresses)?;
            push_listed(alloc, &mut text, &file, 0x1000)?;
        }
        _ => {
            let file = pe_file(alloc)?;
            push_listed(alloc, &mut text, &file, 0)?;
            text.push_str(&text_of_section(alloc, "report", ".text", &file)?)?;
        }
    }
    Ok(text)
}

// A Mach-O file of symbols `a` at these addresses, whose strings follow the rows.
fn macho_file(alloc: Global, text_size: u32, addresses: &[u64]) -> Result<Vec<u8>, AllocError> {
    let count = addresses.len();
    let strings = count.saturating_mul(16).saturating_add(208);
    let words = String::formatted(alloc, format_args!("macho magic size={text_size} nsyms={count} stroff={strings} strsize=3 cut=208"))?;
    let mut file = file_of(alloc, words.as_str())?.unwrap_or(Vec::new(alloc));
    for address in addresses {
        file.extend_from_slice(&[1, 0, 0, 0, 0x0F, 1, 0, 0])?;
        file.extend_from_slice(&address.to_le_bytes())?;
    }
    file.extend_from_slice(b"\0a\0")?;
    Ok(file)
}

fn pe_file(alloc: Global) -> Result<Vec<u8>, AllocError> {
    let words = "pe magic symbols=70000 raw_size=1120000 cut=128";
    let mut file = file_of(alloc, words)?.unwrap_or(Vec::new(alloc));
    for row in 0..FUNCTIONS {
        file.extend_from_slice(b"a\0\0\0\0\0\0\0")?;
        file.extend_from_slice(&(16 * row).to_le_bytes())?;
        file.extend_from_slice(&[1, 0, 0x20, 0, 2, 0])?;
    }
    Ok(file)
}

// Adds what follows the functions, whose addresses begin here, in the listing of a file of over 1 MiB.
fn push_listed(
    alloc: Global,
    text: &mut String,
    file: &[u8],
    start: u32,
) -> Result<(), AllocError> {
    let mut lines = String::new(alloc);
    for row in 0..FUNCTIONS {
        writeln!(
            lines,
            "{:016x}         16 a",
            u64::from(start) + 16 * u64::from(row)
        )?;
    }
    let listed = text_of_section(alloc, "list", ".text", file)?;
    match listed.as_str().strip_prefix(lines.as_str()) {
        Some(rest) if file.len() > 1 << 20 => text.push_str(rest),
        _ => text.push_str("otherwise\n"),
    }
}

// How many crates a file has, each with a function of 16 bytes.
const CRATES: u32 = 5_000;

/// What follows the crates in the report of such a file, or `otherwise`.
pub fn report_of_crates(alloc: Global) -> Result<String, AllocError> {
    let mut strings = Vec::from_slice(alloc, b"\0")?;
    let mut rows = Vec::new(alloc);
    let mut lines = String::new(alloc);
    for row in 0..CRATES {
        rows.push(function(1 + 13 * row, 0x1000 + 16 * row))?;
        let name = String::formatted(alloc, format_args!("_ZN5c{row:04}1aE\0"))?;
        strings.extend_from_slice(name.as_bytes())?;
        writeln!(lines, "        16 c{row:04}")?;
    }
    let image = image(alloc, &strings, rows.as_slice())?;
    let file = lay_out(alloc, &image, ElfLayout::Elf64Little).unwrap_or(Vec::new(alloc));
    let report = text_of_section(alloc, "report", ".text", &file)?;
    let rest = report.as_str().strip_prefix(lines.as_str());
    String::from_str(alloc, rest.unwrap_or("otherwise"))
}

/// Of a Mach-O file of 4,096 rows at 2,048 addresses, 16 bytes apart, in this order or in the opposite one: how many
/// symbols it has, the size of its text, and the first symbol that isn't as wanted; and how many rows the walk for
/// sizes visits, and of how many.
pub fn pairs(alloc: Global, order: &str) -> Result<String, ParseError> {
    let (addresses, rows) = rows_of_pairs(alloc, order)?;
    let file = macho_file(alloc, 0x1_0000, &addresses)?;
    let (symbols, size) = macho::parse(&file)?.symbols(alloc)?;
    let (count, other) = (symbols.len(), other_symbol(&symbols));
    let arranged = arrange(alloc, rows)?;
    let (visited, above) = (arranged.visited, arranged.above.len());
    Ok(String::formatted(alloc, format_args!("{count} in {size}, {other:?}; {visited} of {above}"))?)
}

fn rows_of_pairs(alloc: Global, order: &str) -> Result<(Vec<u64>, Vec<RowAddress>), AllocError> {
    let mut addresses = Vec::new(alloc);
    let mut rows = Vec::new(alloc);
    for index in 0..4096usize {
        let at = if order == "opposite" {
            4095 - index
        } else {
            index
        };
        let address = 0x1000 + 16 * (at as u64 / 2);
        addresses.push(address)?;
        rows.push(RowAddress { address, index })?;
    }
    Ok((addresses, rows))
}

// The first symbol that isn't as wanted: each is 16 bytes long, and the last two reach to the end of the text.
fn other_symbol(symbols: &[SymbolData]) -> Option<usize> {
    for (i, symbol) in symbols.iter().enumerate() {
        let size = if i < 4094 { 16 } else { 32784 };
        let address = (i as u64 / 2).saturating_mul(16).saturating_add(0x1000);
        let is_wanted = symbol.size == size && symbol.address == address;
        if !is_wanted || symbol.name.trimmed.as_str() != "a" {
            return Some(i);
        }
    }
    None
}
