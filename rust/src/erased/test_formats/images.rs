// From crates/test_formats/src/images.rt, by tools/erase.

//! Images: the files that they are laid out in, and those that are refused.

use crate::shim::{String, Vec};
use crate::erased::binfarce_image::image::{ElfLayout, Image, lay_out};
use crate::shim::alloc::{AllocError, Global};
use crate::erased::test_image_samples::{LAYOUTS, bytes, linked_sample, sample, sample_rows, table};
use crate::erased::test_samples::elf::Layout;

/// Whether the sample, with this link of its symbol table, is laid out as this file.
pub fn laid_out(
    alloc: Global,
    link: &str,
    layout: Layout,
    file: &[u8],
) -> Result<String, AllocError> {
    let image = linked_sample(alloc, link.parse().unwrap_or(0))?;
    for (kind, of) in LAYOUTS {
        if of.is_64() == layout.is_64() && of.order() == layout.order() {
            if let Ok(made) = lay_out(alloc, &image, kind) {
                return String::formatted(alloc, format_args!("{}", made.as_slice() == file));
            }
        }
    }
    String::from_str(alloc, "refused")
}

/// How the laying out of an image ends. It is `tables TABLES OTHERS NAMES`, of as many tables and as many parts without
/// bytes, or `sample OTHERS KIND NAMES`, the sample with as many parts of this kind after its own. The last number is
/// that of the part which the image names as that of the section names.
pub fn refusal(alloc: Global, words: &str) -> Result<String, AllocError> {
    let (first, second) = (number(words, 1), number(words, 2));
    let names_at = u16::try_from(number(words, 3)).unwrap_or(0);
    let image = if words.starts_with("tables") {
        image_of(alloc, first, second, names_at)?
    } else {
        sample_with(alloc, first, second, names_at)?
    };
    match lay_out(alloc, &image, ElfLayout::Elf64Little) {
        Ok(_) => String::from_str(alloc, "none"),
        Err(error) => String::formatted(alloc, format_args!("{error}")),
    }
}

// The number that is the word at this index.
fn number(words: &str, index: usize) -> u32 {
    let word = words.split(' ').nth(index).unwrap_or("");
    word.parse().unwrap_or(0)
}

fn image_of(alloc: Global, tables: u32, others: u32, names_at: u16) -> Result<Image, AllocError> {
    let mut parts = Vec::new(alloc);
    for _ in 0..tables {
        parts.push(table(alloc, 0, &sample_rows())?)?;
    }
    for _ in 0..others {
        parts.push(bytes(alloc, 0, 0, &[])?)?;
    }
    Ok(Image { parts, names_at })
}

fn sample_with(alloc: Global, others: u32, kind: u32, names_at: u16) -> Result<Image, AllocError> {
    let mut image = sample(alloc)?;
    for _ in 0..others {
        image.parts.push(bytes(alloc, 0, kind, &[])?)?;
    }
    image.names_at = names_at;
    Ok(image)
}
