// From crates/test_memory/src/refusals.rt, by tools/erase.

//! Refusals and empty lists: they come whichever allocation fails.

use crate::erased::test_memory::readers::{Symbols, symbols};
use crate::erased::binfarce::ParseError;
use crate::erased::binfarce_tools::list::{ListError, Out, list};
use crate::shim::alloc::Global;
use crate::erased::test_image_samples::tally::{Row, Tally};
use crate::erased::test_samples::cases::sample_with;
use crate::erased::test_samples::elf::{LAYOUTS, Layout};
use crate::erased::test_samples::expected::Expected;
use crate::erased::test_samples::files::{FILES, File};
use crate::erased::test_samples::{Patch, macho, patched, pe};

const TRUNCATED: ParseError = ParseError::UnexpectedEof;

const MALFORMED: ParseError = ParseError::MalformedInput;

const NO_SECTION: ParseError = ParseError::SymbolsSectionIsMissing;

// How many symbols are found, and the size of their section.
type Counted = Result<(usize, u64), ParseError>;

fn counted(answer: Symbols) -> Counted {
    match answer {
        Err(error) => Err(error),
        Ok((symbols, size)) => Ok((symbols.len(), size)),
    }
}

// What the first bytes of a file are answered, by how many there are: a Mach-O file may end after a load command.
fn answer_to_the_first(bytes: usize, file: File) -> Counted {
    match (file, bytes) {
        (File::Macho, 28..=39) => Err(NO_SECTION),
        (File::Macho, 156..=191) => Ok((0, 0)),
        _ => Err(TRUNCATED),
    }
}

// Whether any number of the first bytes is answered so.
fn are_answered(alloc: Global, file: File) -> bool {
    let whole = file.bytes();
    for bytes in 0..whole.len() {
        let answer = counted(symbols(alloc, file, &whole[..bytes], ".text"));
        if answer != answer_to_the_first(bytes, file) {
            return false;
        }
    }
    true
}

// What is changed in the ELF sample, the section that is asked for, and what is found in ELF32 and in ELF64.
const ELF: [(&str, &str, &str, Counted, Counted); 2] = [
    ("a table of the greatest size", "sh_size[2]=0xffffffffffffffff", ".text", Err(TRUNCATED), Err(MALFORMED)),
    ("an empty list in ELF", "", ".shstrtab", Ok((0, 33)), Ok((0, 33))),
];

// Where the first row has its value in Mach-O, whose rows have 16 bytes, and its class in PE, whose rows have 18.
const VALUE: usize = macho::ROWS + macho::N_VALUE;

const CLASS: usize = pe::CLASS;

// What is changed in another sample, and what is found.
const OTHERS: [(&str, File, &[Patch<'static>], Counted); 9] = [
    ("2^32 - 1 rows in Mach-O", File::Macho, &[(macho::NSYMS, &[0xFF; 4])], Err(TRUNCATED)),
    ("2^32 - 1 bytes of strings in Mach-O", File::Macho, &[(macho::STRSIZE, &[0xFF; 4])], Err(TRUNCATED)),
    ("a load command of size 7", File::Macho, &[(macho::CMDSIZE, &[7])], Err(MALFORMED)),
    ("an empty text in Mach-O", File::Macho, &[(macho::SIZE, &[0, 0])], Err(MALFORMED)),
    ("2^32 - 1 rows in PE", File::Pe, &[(pe::SYMBOLS, &[0xFF; 4])], Err(TRUNCATED)),
    ("6 rows in PE", File::Pe, &[(pe::SYMBOLS, &[6])], Err(TRUNCATED)),
    // Empty lists.
    ("no symbol table in Mach-O", File::Macho, &[(macho::NCMDS, &[1])], Ok((0, 0))),
    ("no value in the table of Mach-O", File::Macho,
        &[(VALUE, &[0, 0]), (VALUE + 16, &[0, 0]), (VALUE + 32, &[0, 0]), (VALUE + 48, &[0, 0])], Ok((0, 256))),
    ("no external symbol in PE", File::Pe,
        &[(CLASS, &[3]), (CLASS + 18, &[3]), (CLASS + 36, &[3]), (CLASS + 54, &[3]), (CLASS + 72, &[3])], Ok((0, 256))),
];

fn is_answered_of_elf(
    alloc: Global,
    layout: Layout,
    changes: &str,
    section: &str,
    answer: &Counted,
) -> Row {
    let file = sample_with(alloc, layout, changes)?;
    Ok(counted(symbols(alloc, File::Elf(layout), &file, section)) == *answer)
}

fn is_answered(alloc: Global, file: File, patches: &[Patch<'_>], answer: &Counted) -> Row {
    let bytes = patched(alloc, file.bytes(), patches)?;
    Ok(counted(symbols(alloc, file, &bytes, "")) == *answer)
}

pub(crate) fn add_refusals(alloc: Global, tally: &mut Tally) {
    for (what, changes, section, of_32, of_64) in &ELF {
        for layout in LAYOUTS {
            let answer = if layout.is_64() { of_64 } else { of_32 };
            let row = is_answered_of_elf(alloc, layout, changes, section, answer);
            tally.add(what, row);
        }
    }
    for (what, file, patches, answer) in &OTHERS {
        tally.add(what, is_answered(alloc, *file, patches, answer));
    }
}

fn is_refused(alloc: Global, file: &[u8], refusal: ListError) -> bool {
    let mut out = Out::new(Expected::new(b""));
    let result = list(alloc, file, ".text", &mut out);
    let written = out.into_inner();
    result == Err(refusal) && written.is_empty
}

fn is_refused_of_the_first(alloc: Global, file: File, first: &[u8]) -> bool {
    if first.len() < 8 {
        return is_refused(alloc, first, ListError::Unknown);
    }
    match answer_to_the_first(first.len(), file) {
        Err(refusal) => is_refused(alloc, first, ListError::Parse(refusal)),
        Ok(_) => true,
    }
}

// Whether `list` refuses any number of the first bytes that the reader refuses.
fn are_refused(alloc: Global, file: File) -> Row {
    let whole = file.whole(alloc)?;
    for bytes in 0..whole.len() {
        if !is_refused_of_the_first(alloc, file, &whole[..bytes]) {
            return Ok(false);
        }
    }
    Ok(true)
}

pub(crate) fn add_truncated(alloc: Global, tally: &mut Tally) {
    for file in FILES {
        tally.add(file.name(), Ok(are_answered(alloc, file)));
        tally.add(file.name(), are_refused(alloc, file));
    }
}
