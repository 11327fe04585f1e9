// From crates/test_samples/src/cases.rt, by tools/erase.

//! Files in words: a sample, and what is changed of it, in this order. An example is
//! `elf64-little shnum=65535 sh_size[2]=47 cut=331`.
//!
//! - `FIELD=NUMBER`: the low bytes of a number, which is decimal or begins with `0x`.
//! - `PLACE:BYTES`: bytes from an offset or a field on, as hexadecimal digits or as a text after `"`.
//! - `end:BYTES`: bytes after the last one.
//! - `cut=N`: no more than N bytes. `zeros=N`: N zero bytes in place of the file.
//! - `magic`: the magic number that the samples of Mach-O and PE lack.
//!
//! A field of the section header or of the symbol table's row of number N is `FIELD[N]`.

use crate::shim::Vec;
use crate::erased::test_samples::elf::Layout;
use crate::erased::test_samples::files::{FILES, File};
use crate::erased::test_samples::put;
use crate::shim::alloc::{AllocError, Global};

// A field's name, its offset, that of the next one of its name, from it, and its width in bytes.
type Field = (&'static str, usize, usize, usize);

// gABI: "ELF Header", "Section Header", "Symbol Table".
static ELF32: [Field; 25] = [
    ("type", 16, 0, 2), ("machine", 18, 0, 2), ("version", 20, 0, 4), ("entry", 24, 0, 4), ("phoff", 28, 0, 4),
    ("shoff", 32, 0, 4), ("flags", 36, 0, 4), ("ehsize", 40, 0, 2), ("phentsize", 42, 0, 2), ("phnum", 44, 0, 2),
    ("shentsize", 46, 0, 2), ("shnum", 48, 0, 2), ("shstrndx", 50, 0, 2),
    ("sh_name", 215, 40, 4), ("sh_type", 219, 40, 4), ("sh_addr", 227, 40, 4), ("sh_offset", 231, 40, 4),
    ("sh_size", 235, 40, 4), ("sh_link", 239, 40, 4), ("sh_entsize", 251, 40, 4),
    ("st_name", 84, 16, 4), ("st_value", 88, 16, 4), ("st_size", 92, 16, 4), ("st_info", 96, 16, 1),
    ("st_shndx", 98, 16, 2),
];

static ELF64: [Field; 25] = [
    ("type", 16, 0, 2), ("machine", 18, 0, 2), ("version", 20, 0, 4), ("entry", 24, 0, 8), ("phoff", 32, 0, 8),
    ("shoff", 40, 0, 8), ("flags", 48, 0, 4), ("ehsize", 52, 0, 2), ("phentsize", 54, 0, 2), ("phnum", 56, 0, 2),
    ("shentsize", 58, 0, 2), ("shnum", 60, 0, 2), ("shstrndx", 62, 0, 2),
    ("sh_name", 267, 64, 4), ("sh_type", 271, 64, 4), ("sh_addr", 283, 64, 8), ("sh_offset", 291, 64, 8),
    ("sh_size", 299, 64, 8), ("sh_link", 307, 64, 4), ("sh_entsize", 323, 64, 8),
    ("st_name", 96, 24, 4), ("st_value", 104, 24, 8), ("st_size", 112, 24, 8), ("st_info", 100, 24, 1),
    ("st_shndx", 102, 24, 2),
];

// loader.h: `mach_header_64`, `segment_command_64`, `section_64`, `symtab_command`; nlist.h: `nlist_64`.
static MACHO: [Field; 22] = [
    ("cputype", 4, 0, 4), ("cpusubtype", 8, 0, 4), ("filetype", 12, 0, 4), ("ncmds", 16, 0, 4),
    ("sizeofcmds", 20, 0, 4), ("flags", 24, 0, 4), ("nsects", 96, 0, 4), ("sectname", 104, 0, 16),
    ("segname", 120, 0, 16), ("addr", 136, 0, 8), ("size", 144, 0, 8), ("offset", 152, 0, 4), ("s_flags", 168, 0, 4),
    ("cmdsize", 188, 0, 4), ("symoff", 192, 0, 4), ("nsyms", 196, 0, 4), ("stroff", 200, 0, 4), ("strsize", 204, 0, 4),
    ("n_strx", 208, 16, 4), ("n_type", 212, 16, 1), ("n_sect", 213, 16, 1), ("n_value", 216, 16, 8),
];

// PE format: "COFF File Header", "Section Table", "COFF Symbol Table".
static PE: [Field; 20] = [
    ("e_lfanew", 60, 0, 4), ("machine", 68, 0, 2), ("sections", 70, 0, 2), ("date", 72, 0, 4),
    ("symbol_table", 76, 0, 4), ("symbols", 80, 0, 4), ("optional_header", 84, 0, 2), ("characteristics", 86, 0, 2),
    ("name", 88, 0, 8), ("virtual_size", 96, 0, 4), ("virtual_address", 100, 0, 4), ("raw_size", 104, 0, 4),
    ("raw_pointer", 108, 0, 4), ("symbol", 128, 18, 8), ("value", 136, 18, 4), ("section", 140, 18, 2),
    ("symbol_type", 142, 18, 2), ("class", 144, 18, 1), ("auxiliary", 145, 18, 1), ("second_word", 132, 18, 4),
];

static SAMPLES: [File; 6] = FILES;

/// The samples that a word names: one, those of a class or format, or all.
pub fn samples_of(word: &str) -> &'static [File] {
    let range = match word {
        "all" => 0..6,
        "elf" => 0..4,
        "elf32" => 0..2,
        "elf64" => 2..4,
        "elf32-little" => 0..1,
        "elf32-big" => 1..2,
        "elf64-little" => 2..3,
        "elf64-big" => 3..4,
        "macho" => 4..5,
        "pe" => 5..6,
        _ => 0..0,
    };
    SAMPLES.get(range).unwrap_or(&[])
}

/// The file that these words describe; `None` if they are not understood, or name more than one sample.
pub fn file_of(alloc: Global, words: &str) -> Result<Option<Vec<u8>>, AllocError> {
    let (name, changes) = words.split_once(' ').unwrap_or((words, ""));
    match samples_of(name) {
        [sample] => changed(
            alloc,
            *sample,
            Vec::from_slice(alloc, sample.bytes())?,
            changes,
        ),
        _ => Ok(None),
    }
}

/// The sample in this layout with these changes; no bytes where a word is not understood.
pub fn sample_with(alloc: Global, layout: Layout, changes: &str) -> Result<Vec<u8>, AllocError> {
    let file = Vec::from_slice(alloc, layout.bytes())?;
    Ok(changed(alloc, File::Elf(layout), file, changes)?.unwrap_or(Vec::new(alloc)))
}

/// A file with these changes, where its fields are those of a sample; `None` if a word is not understood.
pub fn changed(
    alloc: Global,
    sample: File,
    file: Vec<u8>,
    changes: &str,
) -> Result<Option<Vec<u8>>, AllocError> {
    let mut file = file;
    for word in changes.split(' ') {
        if !change(alloc, sample, &mut file, word)? {
            return Ok(None);
        }
    }
    Ok(Some(file))
}

// Makes the change that a word describes. `false` if the word is not understood.
fn change(alloc: Global, sample: File, file: &mut Vec<u8>, word: &str) -> Result<bool, AllocError> {
    match word.split_once(':') {
        Some((place, bytes)) => match bytes_of(alloc, bytes)? {
            Some(bytes) => write(sample, file, place, &bytes),
            None => Ok(false),
        },
        None => change_number(sample, file, word),
    }
}

fn write(sample: File, file: &mut Vec<u8>, place: &str, bytes: &[u8]) -> Result<bool, AllocError> {
    match place_of(sample, place) {
        Some((offset, _)) => put(file, offset, bytes),
        None if place == "end" => file.extend_from_slice(bytes)?,
        None => return Ok(false),
    }
    Ok(true)
}

fn change_number(sample: File, file: &mut Vec<u8>, word: &str) -> Result<bool, AllocError> {
    let (name, digits) = word.split_once('=').unwrap_or((word, "0"));
    let Some(number) = number_of(digits) else {
        return Ok(false);
    };
    match (name, place_of(sample, name)) {
        ("cut", _) => file.truncate(number as usize),
        ("zeros", _) => {
            file.clear();
            file.resize(number as usize, 0)?;
        }
        ("magic", _) => {
            for (offset, bytes) in sample.magic() {
                put(file, *offset, bytes);
            }
        }
        (_, Some((offset, width))) if width > 0 => put_number(sample, file, offset, width, number),
        _ => return Ok(word.is_empty()),
    }
    Ok(true)
}

// Writes as many low bytes of a number as the field has, in the sample's order.
fn put_number(sample: File, file: &mut Vec<u8>, offset: usize, width: usize, number: u64) {
    let (little, big) = (number.to_le_bytes(), number.to_be_bytes());
    let bytes = match sample {
        File::Elf(Layout::Elf32Big | Layout::Elf64Big) => big.get(8usize.saturating_sub(width)..),
        _ => little.get(..width),
    };
    put(file, offset, bytes.unwrap_or(&little));
}

// The offset and the width of a field, or an offset, which has no width.
fn place_of(sample: File, word: &str) -> Option<(usize, usize)> {
    if let Ok(offset) = word.parse() {
        return Some((offset, 0));
    }
    let (name, n) = match word.split_once('[') {
        None => (word, 0usize),
        Some((name, rest)) => (name, rest.split_once(']')?.0.parse().ok()?),
    };
    let fields: &[Field] = match sample {
        File::Elf(Layout::Elf32Little | Layout::Elf32Big) => &ELF32,
        File::Elf(_) => &ELF64,
        File::Macho => &MACHO,
        File::Pe => &PE,
    };
    for (field, start, step, width) in fields {
        if *field == name {
            return Some((step.saturating_mul(n).saturating_add(*start), *width));
        }
    }
    None
}

fn number_of(word: &str) -> Option<u64> {
    match word.split_once('x') {
        Some(("0", digits)) => u64::from_str_radix(digits, 16).ok(),
        _ => word.parse().ok(),
    }
}

/// The bytes of a text after `"`, or those that pairs of hexadecimal digits write; `None` if there are others.
pub fn bytes_of(alloc: Global, word: &str) -> Result<Option<Vec<u8>>, AllocError> {
    if let Some(text) = word.strip_prefix('"') {
        return Ok(Some(Vec::from_slice(alloc, text.as_bytes())?));
    }
    let mut bytes = Vec::new(alloc);
    for at in 0..word.len() / 2 {
        match byte_at(word, 2 * at) {
            Some(byte) => bytes.push(byte)?,
            None => return Ok(None),
        }
    }
    Ok((word.len() % 2 == 0).then_some(bytes))
}

fn byte_at(word: &str, at: usize) -> Option<u8> {
    u8::from_str_radix(word.get(at..at.saturating_add(2))?, 16).ok()
}
