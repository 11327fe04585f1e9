// From crates/test_lookups/src/sections.rt, by tools/erase.

//! Sections: their lines, their bytes and their names, and what a file's first bytes have of them.

use crate::shim::Vec;
use crate::erased::test_lookups::Asking;
use crate::erased::test_lookups::words::{end_line, push_number, push_runs, push_words, words_of};
use crate::erased::binfarce_sections::bytes::{section_bytes, write_section};
use crate::erased::binfarce_sections::list::list_sections;
use crate::erased::binfarce_sections::sections::sections_of;
use crate::erased::binfarce_tools::SymbolTable;
use crate::erased::binfarce_tools::list::{Out, Sink};
use crate::erased::binfarce_tools::tables::{Selection, read};
use crate::shim::io::{self, Write};
use crate::erased::test_reading::{Asked, parts, whole};
use crate::erased::test_samples::first_bytes;
use crate::erased::test_samples::streams::Target;

/// Adds what is written, and the words of a refusal. Of bytes their number is shown, or they are in hexadecimal.
pub(crate) fn push_shown(
    of: &Asking<'_>,
    asked: Asked<'_>,
    in_hex: bool,
    text: &mut Vec<u8>,
) -> io::Result<()> {
    let answer = whole(of.alloc, of.kind, of.file, asked);
    if in_hex {
        for byte in &answer.text {
            write!(text, "{byte:02x}")?;
        }
    } else if matches!(asked, Asked::Lines) {
        text.extend_from_slice(&answer.text)?;
    } else {
        push_number(text, answer.text.len() as u64)?;
    }
    text.extend_from_slice(&words_of(of.alloc, &answer.ended, "")?)?;
    if parts(of.alloc, of.kind, &of.file, &mut (), asked) != answer {
        push_words(text, " otherwise at offsets")?;
    }
    Ok(())
}

/// Adds the names of sections 0, 1, 2 and of the greatest number, and whether they share addresses.
pub(crate) fn push_names(of: &Asking<'_>, text: &mut Vec<u8>) -> io::Result<()> {
    let Ok(tables) = read(
        of.alloc,
        &of.file,
        &mut (),
        SymbolTable::Symtab,
        Selection::All,
    ) else {
        return push_words(text, "refused");
    };
    for number in [0, 1, 2, u32::MAX] {
        push_words(text, tables.section_name(number).unwrap_or("-"))?;
        push_words(text, " ")?;
    }
    push_words(
        text,
        if tables.shares_addresses() {
            "shared"
        } else {
            "apart"
        },
    )
}

/// Adds the name of each section, one by one, and the words of a refusal.
pub(crate) fn push_each(of: &Asking<'_>, text: &mut Vec<u8>) -> io::Result<()> {
    let sections = match sections_of(of.file) {
        Ok(sections) => sections,
        Err(e) => return write!(text, "{e}"),
    };
    for section in sections {
        match section {
            Ok(section) => write!(text, "{} ", section.name.unwrap_or("-"))?,
            Err(e) => write!(text, "{e}")?,
        }
    }
    Ok(())
}

/// Adds how many bytes each number of the first bytes of a file has of the section of this name, and how many lines.
pub(crate) fn push_cut(of: &Asking<'_>, text: &mut Vec<u8>) -> io::Result<()> {
    let counts = of.file.len().saturating_add(1);
    push_runs(
        of.alloc,
        text,
        counts,
        |count| bytes_of(of, first_bytes(of.file, count)),
    )?;
    end_line(text, 0)?;
    let all = whole(of.alloc, of.kind, of.file, Asked::Lines).text;
    push_runs(
        of.alloc,
        text,
        counts,
        |count| lines_of(of, &all, first_bytes(of.file, count)),
    )
}

// How many bytes a part of a file has of a section, which must be those of the whole file, or the words of the refusal.
fn bytes_of(of: &Asking<'_>, part: &[u8]) -> io::Result<Vec<u8>> {
    let bytes = match section_bytes(part, of.words) {
        Ok(bytes) => bytes,
        Err(e) => return words_of(of.alloc, &Err(e), ""),
    };
    let mut words = Vec::new(of.alloc);
    push_number(&mut words, bytes.len() as u64)?;
    if section_bytes(of.file, of.words) != Ok(bytes) {
        push_words(&mut words, "others")?;
    }
    Ok(words)
}

// How many lines a part of a file has, which must be the first of these, and the words of the refusal.
fn lines_of(of: &Asking<'_>, all: &[u8], part: &[u8]) -> io::Result<Vec<u8>> {
    let found = whole(of.alloc, of.kind, part, Asked::Lines);
    let all = core::str::from_utf8(all).unwrap_or("");
    let written = core::str::from_utf8(&found.text).unwrap_or("");
    let mut words = Vec::new(of.alloc);
    push_number(&mut words, written.lines().count() as u64)?;
    if !are_first_of(all, written) {
        push_words(&mut words, "others ")?;
    }
    words.extend_from_slice(&words_of(of.alloc, &found.ended, "")?)?;
    Ok(words)
}

// How many characters are before a name.
const HEAD: usize = 39;

// Whether these are the first of the lines, each with its name, or without it, where the header of the section of names
// is cut off.
fn are_first_of(lines: &str, written: &str) -> bool {
    let mut wanted = lines.lines();
    for line in written.lines() {
        let want = wanted.next().unwrap_or("");
        if line != want && (line.len() != HEAD || !want.starts_with(line)) {
            return false;
        }
    }
    true
}

/// Adds how a call ends that writes by at most 1, 2 and more bytes at once to a writer that takes no more than it has,
/// and one that writes to a writer that takes 0, 1 and more bytes.
pub(crate) fn push_writes(of: &Asking<'_>, asked: Asked<'_>, text: &mut Vec<u8>) -> io::Result<()> {
    let wanted = whole(of.alloc, of.kind, of.file, asked).text;
    push_runs(of.alloc, text, 33, |n| {
        let target = Target::taking(of.alloc, n.saturating_add(1));
        written(
            of,
            asked,
            &wanted,
            Target {
                left: wanted.len(),
                ..target
            },
        )
    })?;
    push_words(text, "; ")?;
    push_runs(of.alloc, text, wanted.len(), |left| {
        let target = Target::taking(of.alloc, 5);
        written(
            of,
            asked,
            first_bytes(&wanted, left),
            Target { left, ..target },
        )
    })
}

// How a call ends whose writer must have taken these bytes.
fn written(of: &Asking<'_>, asked: Asked<'_>, bytes: &[u8], target: Target) -> io::Result<Vec<u8>> {
    let mut out = Out::new(target);
    let ended = match asked {
        Asked::Bytes(name) => write_section(of.file, name, &mut out),
        _ => list_sections(of.alloc, of.file, &mut out),
    };
    let is_told = out.failed() == ended.is_err();
    if is_told && out.into_inner().taken.as_slice() == bytes {
        words_of(of.alloc, &ended, "written")
    } else {
        words_of(of.alloc, &Ok(()), "other bytes")
    }
}
