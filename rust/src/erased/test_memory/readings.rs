// From crates/test_memory/src/readings.rt, by tools/erase.

//! Readings of files' parts, beside the bytes of the whole files.

use crate::shim::HostRuntime;
use crate::shim::alloc::{AllocError, Global};
use crate::shim::fs;
use crate::erased::test_image_samples::tally::{Row, Tally};
use crate::erased::test_reading::{Asked, parts, whole};
use crate::erased::test_samples::elf::{LAYOUTS, Layout};
use crate::erased::test_samples::files::File;
use crate::erased::test_samples::macho::{MACHO, SIZEOFCMDS};
use crate::erased::test_samples::patched;
use crate::erased::test_samples::pe::PE;

// A file that has the bytes of a sample.
const SAMPLE: &str = "e-elf64-little.bin";

const TEXT: Asked<'static> = Asked::Functions(Some(".text"));

const ALL: Asked<'static> = Asked::Functions(None);

fn is_same(alloc: Global, kind: File, file: &[u8], asked: Asked<'_>) -> Row {
    let wanted = whole(alloc, kind, file, asked);
    let answer = parts(alloc, kind, &file, &mut (), asked);
    if wanted.is_out_of_memory() || answer.is_out_of_memory() {
        Err(AllocError)
    } else {
        Ok(answer == wanted)
    }
}

// The sample with the size of its load commands in its header, which has none, so that the parts alone are read.
fn is_same_with_size(alloc: Global) -> Row {
    let file = patched(alloc, &MACHO, &[(SIZEOFCMDS, &[0xB0])])?;
    is_same(alloc, File::Macho, &file, TEXT)
}

pub(crate) fn add_readings(alloc: Global, tally: &mut Tally) {
    for layout in LAYOUTS {
        let row = is_same(alloc, File::Elf(layout), layout.bytes(), TEXT);
        tally.add("parts of ELF", row);
    }
    tally.add("parts of PE", is_same(alloc, File::Pe, &PE, TEXT));
    tally.add("all of Mach-O", is_same(alloc, File::Macho, &MACHO, TEXT));
    tally.add("parts of Mach-O", is_same_with_size(alloc));
    tally.add(
        "all sections of Mach-O",
        is_same(alloc, File::Macho, &MACHO, ALL),
    );
    tally.add("all sections of PE", is_same(alloc, File::Pe, &PE, ALL));
}

/// Whether the file gives the sample's bytes. No clause says what an opened file gives, so this run alone refuses a
/// `fill_at` of `File` that reads at another offset (`read_exact_at(buf, 0)`, or `offset + 1`), and a `length` below
/// the file's.
pub(crate) fn is_read(rt: &HostRuntime) -> bool {
    let kind = File::Elf(Layout::Elf64Little);
    match fs::File::open(rt, SAMPLE) {
        Ok(file) => {
            parts(rt.alloc(), kind, &file, &mut (), TEXT)
                == whole(rt.alloc(), kind, kind.bytes(), TEXT)
        }
        Err(_) => false,
    }
}
