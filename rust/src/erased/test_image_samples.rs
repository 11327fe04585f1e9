// From crates/test_image_samples/src/lib.rt, by tools/erase.

//! Images of small ELF files, and the files that they are laid out in, for tests of readers; and pictures of sums by crate.

pub mod tally;

use crate::shim::Vec;
use crate::erased::binfarce_figures::claims::Claims;
use crate::erased::binfarce_figures::key::{Grouping, Key};
use crate::erased::binfarce_figures::map::map_by;
use crate::erased::binfarce_image::image::{ElfLayout, Image, ImageError, Part, Row, lay_out};
use crate::erased::binfarce_tools::list::Sink;
use crate::erased::binfarce_tools::report::ReportError;
use crate::erased::binfarce_tools::tables::Tables;
use crate::shim::alloc::{AllocError, Global};
use crate::erased::test_samples::elf::Layout;

/// The layouts, each with the one in which the sample has the same bytes.
pub const LAYOUTS: [(ElfLayout, Layout); 4] = [
    (ElfLayout::Elf32Little, Layout::Elf32Little),
    (ElfLayout::Elf32Big, Layout::Elf32Big),
    (ElfLayout::Elf64Little, Layout::Elf64Little),
    (ElfLayout::Elf64Big, Layout::Elf64Big),
];

/// The offset of the size of the symbol table's first row in a file of 64 bits that is laid out here.
pub const FIRST_SIZE: usize = 112;

const STRINGS: &[u8] = b"\0_ZN3foo3barE\0bad\0";

const SECTION_NAMES: &[u8] = b"\0.text\0.symtab\0.strtab\0.shstrtab\0";

/// Draws the sums by crate, with this title.
pub fn draw<S: Sink>(
    alloc: Global,
    title: &str,
    tables: &Tables<'_>,
    out: &mut S,
) -> Result<(), ReportError> {
    let claims = Claims::of_tables(alloc, tables)?;
    let grouping = Grouping {
        key: Key::Crate,
        joins_std: false,
    };
    map_by(alloc, title, &claims, grouping, None, out)
}

/// A section of these bytes.
pub fn bytes(alloc: Global, name: u32, kind: u32, body: &[u8]) -> Result<Part, AllocError> {
    let body = Vec::from_slice(alloc, body)?;
    Ok(Part::Bytes {
        name,
        kind,
        link: 0,
        body,
    })
}

/// A symbol table of these rows.
pub fn table(alloc: Global, link: u32, rows: &[Row]) -> Result<Part, AllocError> {
    let rows = Vec::from_slice(alloc, rows)?;
    Ok(Part::Table {
        name: 7,
        link,
        rows,
    })
}

/// A row of the symbol table: a function of section 1, of 16 bytes.
pub fn function(name: u32, address: u32) -> Row {
    Row {
        name,
        address,
        size: 16,
        info: 0x12,
        other: 0,
        section: 1,
    }
}

/// The rows of the sample: one function of `.text` with a size and a name, and four that miss one of these.
pub fn sample_rows() -> [Row; 5] {
    let mut rows = [function(14, 0x1010); 5];
    rows[0] = function(1, 0x1000);
    rows[1].section = 2;
    rows[2].size = 0;
    rows[3].name = 0;
    rows[4].info = 0x11;
    rows
}

/// The image of the sample with these strings and rows.
pub fn image(alloc: Global, strings: &[u8], rows: &[Row]) -> Result<Image, AllocError> {
    let mut parts = Vec::new(alloc);
    parts.push(bytes(alloc, 0, 0, &[])?)?;
    parts.push(bytes(alloc, 1, 1, &[0xC3; 32])?)?;
    parts.push(table(alloc, 3, rows)?)?;
    parts.push(bytes(alloc, 15, 3, strings)?)?;
    parts.push(bytes(alloc, 23, 3, SECTION_NAMES)?)?;
    Ok(Image { parts, names_at: 4 })
}

/// The image of the sample.
pub fn sample(alloc: Global) -> Result<Image, AllocError> {
    image(alloc, STRINGS, &sample_rows())
}

/// The image of the sample, with this link of its symbol table.
pub fn linked_sample(alloc: Global, link: u32) -> Result<Image, AllocError> {
    let mut image = sample(alloc)?;
    if let Some(part) = image.parts.get_mut(2) {
        *part = table(alloc, link, &sample_rows())?;
    }
    Ok(image)
}

// The image of the sample with functions of these names.
fn image_of(alloc: Global, names: &[&str]) -> Result<Image, AllocError> {
    let mut strings = Vec::from_slice(alloc, b"\0")?;
    let mut rows = Vec::new(alloc);
    let mut address = 0x1000;
    for name in names {
        rows.push(function(u32::try_from(strings.len()).unwrap_or(0), address))?;
        strings.extend_from_slice(name.as_bytes())?;
        strings.extend_from_slice(b"\0")?;
        address = address.wrapping_add(16);
    }
    image(alloc, &strings, rows.as_slice())
}

/// An ELF file with functions of these names, each of 16 bytes.
pub fn file_of(alloc: Global, names: &[&str]) -> Result<Vec<u8>, ImageError> {
    lay_out(alloc, &image_of(alloc, names)?, ElfLayout::Elf64Little)
}

/// An ELF file with two functions, the first of this name and the second `foo::bar`.
pub fn file_beside(alloc: Global, name: &str) -> Result<Vec<u8>, ImageError> {
    file_of(alloc, &[name, "_ZN3foo3barE"])
}
