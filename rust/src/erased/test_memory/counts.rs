// From crates/test_memory/src/counts.rt, by tools/erase.

//! The greatest numbers of sections and of load commands: what a search finds comes whichever allocation fails.

use crate::erased::binfarce::{ParseError, elf32, elf64, macho, pe};
use crate::shim::alloc::Global;
use crate::erased::test_image_samples::tally::{Row, Tally};
use crate::erased::test_samples::cases::sample_with;
use crate::erased::test_samples::elf::{LAYOUTS, Layout};
use crate::erased::test_samples::files::File;
use crate::erased::test_samples::macho::{NCMDS, NSECTS};
use crate::erased::test_samples::pe::SECTIONS;
use crate::erased::test_samples::{Patch, patched};

// Whether the search for a section that isn't there is refused, or finds nothing.
type Searched = Result<bool, ParseError>;

const TRUNCATED: Searched = Err(ParseError::UnexpectedEof);

fn past_the_last_of_elf32(file: &[u8], layout: Layout) -> Searched {
    let file = elf32::parse(file, layout.order())?;
    Ok(file.section_with_name("nope")?.is_none())
}

fn past_the_last_of_elf64(file: &[u8], layout: Layout) -> Searched {
    let file = elf64::parse(file, layout.order())?;
    Ok(file.section_with_name("nope")?.is_none())
}

fn past_the_last_of_macho(file: &[u8]) -> Searched {
    Ok(macho::parse(file)?.find_section(|_| false)?.is_none())
}

fn past_the_last_of_pe(file: &[u8]) -> Searched {
    Ok(pe::parse(file)?.find_section(|_| false)?.is_none())
}

fn past_the_last(format: File, file: &[u8]) -> Searched {
    match format {
        File::Elf(layout) if layout.is_64() => past_the_last_of_elf64(file, layout),
        File::Elf(layout) => past_the_last_of_elf32(file, layout),
        File::Macho => past_the_last_of_macho(file),
        File::Pe => past_the_last_of_pe(file),
    }
}

// Offsets of numbers of sections or load commands, and what is found when that is the greatest.
const COUNTS: [(&str, File, Patch<'static>, Searched); 3] = [
    ("2^32 - 1 load commands", File::Macho, (NCMDS, &[0xFF; 4]), Ok(true)),
    ("2^32 - 1 sections in Mach-O", File::Macho, (NSECTS, &[0xFF; 4]), TRUNCATED),
    ("65,535 sections in PE", File::Pe, (SECTIONS, &[0xFF; 2]), TRUNCATED),
];

fn is_searched(alloc: Global, file: File, count: Patch<'_>, found: &Searched) -> Row {
    let bytes = patched(alloc, file.bytes(), &[count])?;
    Ok(past_the_last(file, &bytes) == *found)
}

fn is_searched_in_elf(alloc: Global, layout: Layout) -> Row {
    let bytes = sample_with(alloc, layout, "shnum=65535")?;
    Ok(past_the_last(File::Elf(layout), &bytes) == TRUNCATED)
}

pub(crate) fn add_counts(alloc: Global, tally: &mut Tally) {
    for layout in LAYOUTS {
        tally.add("65,535 sections in ELF", is_searched_in_elf(alloc, layout));
    }
    for (name, file, count, found) in &COUNTS {
        tally.add(name, is_searched(alloc, *file, *count, found));
    }
}
