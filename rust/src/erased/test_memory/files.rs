// From crates/test_memory/src/files.rt, by tools/erase.

//! Laying out: the file, or `OutOfMemory`; and the refusals, whichever allocation fails.
//!
//! `TooLarge` has no row: it takes bodies of 2^32 bytes together, or rows that have 2.8 GB in memory.

use crate::shim::Vec;
use crate::erased::binfarce_image::image::{ElfLayout, Image, ImageError, Part, lay_out};
use crate::shim::alloc::{AllocError, Global};
use crate::erased::test_image_samples::tally::{Row, Tally};
use crate::erased::test_image_samples::{LAYOUTS, bytes, sample, sample_rows, table};

fn is_laid_out(alloc: Global, layout: ElfLayout, file: &[u8]) -> Row {
    let image = sample(alloc)?;
    match lay_out(alloc, &image, layout) {
        Ok(bytes) => Ok(bytes.as_slice() == file),
        Err(ImageError::OutOfMemory) => Err(AllocError),
        Err(_) => Ok(false),
    }
}

// The layouts of the sample, in order.
const LAID_OUT: [&str; 4] = [
    "laid out in ELF32, little endian",
    "laid out in ELF32, big endian",
    "laid out in ELF64, little endian",
    "laid out in ELF64, big endian",
];

pub(crate) fn add_files(alloc: Global, tally: &mut Tally) {
    for ((layout, file), name) in LAYOUTS.iter().zip(LAID_OUT) {
        tally.add(name, is_laid_out(alloc, *layout, file.bytes()));
    }
}

fn two_tables(alloc: Global) -> Result<Image, AllocError> {
    let mut parts = Vec::new(alloc);
    parts.push(table(alloc, 0, &sample_rows())?)?;
    parts.push(table(alloc, 0, &sample_rows())?)?;
    Ok(Image { parts, names_at: 9 })
}

fn bytes_of_the_tables_kind(alloc: Global) -> Result<Image, AllocError> {
    let mut image = sample(alloc)?;
    image.parts.push(bytes(alloc, 0, 2, &[])?)?;
    Ok(image)
}

fn names_in(alloc: Global, names_at: u16) -> Result<Image, AllocError> {
    let mut image = sample(alloc)?;
    image.names_at = names_at;
    Ok(image)
}

fn many_parts(alloc: Global) -> Result<Image, AllocError> {
    const PARTS: usize = 65_536;
    let mut parts = Vec::with_capacity(alloc, PARTS)?;
    for _ in 0..PARTS {
        parts.push(Part::Bytes {
            name: 0,
            kind: 0,
            link: 0,
            body: Vec::new(alloc),
        })?;
    }
    Ok(Image { parts, names_at: 0 })
}

// Whether an image is refused so in every layout.
fn is_refused(alloc: Global, image: Result<Image, AllocError>, refusal: &ImageError) -> Row {
    let image = image?;
    for (layout, _) in &LAYOUTS {
        match lay_out(alloc, &image, *layout) {
            Ok(_) => return Ok(false),
            Err(error) => {
                if error != *refusal {
                    return Ok(false);
                }
            }
        }
    }
    Ok(true)
}

pub(crate) fn add_unfit_images(alloc: Global, tally: &mut Tally) {
    let row = is_refused(alloc, many_parts(alloc), &ImageError::TooManySections);
    tally.add("65,536 parts", row);
    let row = is_refused(alloc, two_tables(alloc), &ImageError::TableCount);
    tally.add("two tables", row);
    let image = bytes_of_the_tables_kind(alloc);
    let row = is_refused(alloc, image, &ImageError::TableCount);
    tally.add("bytes of the table's kind", row);
    let row = is_refused(alloc, names_in(alloc, 2), &ImageError::NamesPlace);
    tally.add("names in the table", row);
    let row = is_refused(alloc, names_in(alloc, 5), &ImageError::NamesPlace);
    tally.add("names after the parts", row);
}
