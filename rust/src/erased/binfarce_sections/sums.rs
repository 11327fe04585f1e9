// From crates/binfarce_sections/src/sums.rt, by tools/erase.

//! The bytes of a file by its sections.

use crate::shim::{String, Vec};
use crate::erased::binfarce_sections::error::SectionError;
use crate::erased::binfarce_sections::kinds::SectionType;
use crate::erased::binfarce_sections::list::{push_name, push_type_member};
use crate::erased::binfarce_sections::sections::{Section, Sections};
use crate::erased::binfarce_sections::tables::Tables;
use crate::erased::binfarce_rows::columns::count_of;
use crate::erased::binfarce_rows::json::{Form, push_number_member, push_start, push_text_member};
use crate::erased::binfarce_tools::list::Sink;
use crate::erased::binfarce_tools::writing::write_whole;
use crate::shim::alloc::{AllocError, Global};
use core::cmp::Reverse;

// A section, and how many of the file's bytes count for it.
pub(crate) struct Share<'a> {
    pub section: Section<'a>,
    pub bytes: u64,
    /// Its name after its segment's, if it has a segment.
    pub full_name: Option<String>,
}

impl Share<'_> {
    // The name, as `sum_sections` shows it.
    pub(crate) fn name(&self) -> &str {
        match (&self.full_name, self.section.name) {
            (Some(name), _) => name.as_str(),
            (None, Some(name)) => name,
            (None, None) => "",
        }
    }
}

/// The bytes of a file by its sections: how many of the file's bytes count for each section, and for none.
///
/// A byte that several sections have counts for the first of them, in the order of their offsets, those of one offset in
/// file order. Bytes past the file's end don't count. ELF's inactive section headers (`SHT_NULL`) are left out. Names that
/// the file stores whole are borrowed.
///
/// Contracts speak of the file's length, and of the sections with their bytes: the greatest number of bytes first, those
/// of one number in the order of their offsets.
pub struct SectionSums<'a> {
    pub(crate) shares: Vec<Share<'a>>,
    // How many of the file's bytes count for no section.
    pub(crate) rest: u64,
    pub(crate) file_length: u64,
    // How many bytes all sections have in memory.
    pub(crate) memory: u128,
}

impl<'a> SectionSums<'a> {
    /// The sums of the sections of a file, from its tables, which `tables::read` reads.
    ///
    /// # Errors
    ///
    /// `Unknown` if the file's format isn't supported; `Parse` if the reader refuses a section, of all that the file
    /// states; `OutOfMemory` if an allocation failed.
    pub fn of_tables(alloc: Global, tables: &'a Tables) -> Result<SectionSums<'a>, SectionError> {
        let sections = tables.sections()?;
        sums_left(alloc, sections, tables.file_length())
    }

    /// The sums of an empty file, which has no sections.
    pub fn none(alloc: Global) -> SectionSums<'a> {
        SectionSums {
            shares: Vec::new(alloc),
            rest: 0,
            file_length: 0,
            memory: 0,
        }
    }

    /// The length of the file in bytes: the sum of all numbers of bytes in the file.
    pub fn file_length(&self) -> u64 {
        self.file_length
    }
}

/// Writes a row for each section of a file: how many of the file's bytes count for it, and how many it has in memory.
/// A row for the bytes that count for none follows, then the file's length, which is the sum of the first numbers.
///
/// The greatest comes first, those of one number of bytes are in the order of their offsets.
///
/// A line is `{bytes:>10} {memory:>10} {name}`, with the name as in `list_sections`; `[N others]` is the name of the line
/// that sums up those past the first, `[headers and gaps]` of the rest; the last line is `sum {length}`. An object has
/// the members `file`, `segment`, `section`, `type`, `flags`, `size` and `memory`; type and flags are as in `list_source`,
/// and `null` of the two rows that are no sections. The last one has `file`, and the length as `sum`.
///
/// # Errors
///
/// `OutOfMemory` if an allocation failed: nothing is written then. `Write` if a write failed: a beginning of the
/// rows may then be written.
pub fn sum_sections<S: Sink>(
    alloc: Global,
    sums: &SectionSums<'_>,
    first: Option<usize>,
    form: Form<'_>,
    out: &mut S,
) -> Result<(), SectionError> {
    let text = rows_of(alloc, sums, first, form)?;
    write_whole(out, text.as_bytes()).map_err(|_| SectionError::Write)
}

// The sums of the sections that are left.
fn sums_left<'a>(
    alloc: Global,
    sections: Sections<'a>,
    file_length: u64,
) -> Result<SectionSums<'a>, SectionError> {
    let sections = active_of(alloc, sections)?;
    let shares = ranked_of(alloc, sections, file_length)?;
    let rest = rest_of(&shares, file_length);
    let memory = memory_of(&shares);
    Ok(SectionSums {
        shares,
        rest,
        file_length,
        memory,
    })
}

// The sections that are left, without inactive ones.
fn active_of<'a>(alloc: Global, sections: Sections<'a>) -> Result<Vec<Section<'a>>, SectionError> {
    let mut active = Vec::new(alloc);
    for section in sections {
        push_active(&mut active, section?)?;
    }
    Ok(active)
}

// Adds a section, unless its header is inactive.
fn push_active<'a>(kept: &mut Vec<Section<'a>>, section: Section<'a>) -> Result<(), AllocError> {
    // The header is inactive.
    if section.kind == SectionType::Elf(SHT_NULL) {
        return Ok(());
    }
    kept.push(section)?;
    Ok(())
}

const SHT_NULL: u32 = 0;

// The shares of sections, the greatest first.
fn ranked_of<'a>(
    alloc: Global,
    mut sections: Vec<Section<'a>>,
    file_length: u64,
) -> Result<Vec<Share<'a>>, AllocError> {
    sections.sort_by_key(|section| section.offset)?;
    let mut shares = shares_of(alloc, &sections, file_length)?;
    shares.sort_by_key(|share| Reverse(share.bytes))?;
    Ok(shares)
}

// The shares of sections in the order of their offsets: each counts from the end of those before it on.
fn shares_of<'a>(
    alloc: Global,
    sections: &[Section<'a>],
    file_length: u64,
) -> Result<Vec<Share<'a>>, AllocError> {
    let mut shares = Vec::with_capacity(alloc, sections.len())?;
    let mut end = 0;
    for section in sections {
        let next = end_in(section, file_length);
        let bytes = next.saturating_sub(section.offset.max(end));
        let section = *section;
        let full_name = full_name(alloc, &section)?;
        shares.push(Share {
            section,
            bytes,
            full_name,
        })?;
        end = next.max(end);
    }
    Ok(shares)
}

// Where a section ends in a file of this length.
fn end_in(section: &Section<'_>, file_length: u64) -> u64 {
    let end = section.offset.saturating_add(section.file_size);
    end.min(file_length)
}

// A section's name after its segment's, if it has a segment.
fn full_name(alloc: Global, section: &Section<'_>) -> Result<Option<String>, AllocError> {
    if section.segment.is_none() {
        return Ok(None);
    }
    let mut name = String::new(alloc);
    push_name(&mut name, section.segment, section.name)?;
    Ok(Some(name))
}

// How many of a file's bytes count for no section.
fn rest_of(shares: &[Share<'_>], file_length: u64) -> u64 {
    let rest = u128::from(file_length).saturating_sub(total_of(shares));
    rest as u64
}

// The name of the bytes that count for no section.
pub(crate) const REST: &str = "[headers and gaps]";

// The rows of sections, that of the rest, and the file's length.
fn rows_of(
    alloc: Global,
    sums: &SectionSums<'_>,
    first: Option<usize>,
    form: Form<'_>,
) -> Result<String, AllocError> {
    let mut text = String::new(alloc);
    push_shares(alloc, &mut text, form, first, &sums.shares)?;
    push_plain(&mut text, form, REST, u128::from(sums.rest), 0)?;
    push_end(&mut text, form, sums.file_length)?;
    Ok(text)
}

// Appends the row of the file's length.
fn push_end(text: &mut String, form: Form<'_>, file_length: u64) -> Result<(), AllocError> {
    match form {
        Form::Lines => write!(text, "sum {file_length}\n"),
        Form::Objects(file, _) => {
            push_start(text, file)?;
            push_number_member(text, "sum", file_length)?;
            text.push_str("}\n")
        }
    }
}

// Appends the rows of the first shares, and the one that sums up all others.
fn push_shares(
    alloc: Global,
    text: &mut String,
    form: Form<'_>,
    first: Option<usize>,
    shares: &[Share<'_>],
) -> Result<(), AllocError> {
    let count = count_of(first, shares.len());
    push_each(text, form, &shares[..count])?;
    if count < shares.len() {
        push_others(alloc, text, form, &shares[count..])?;
    }
    Ok(())
}

// Appends the rows of sections.
fn push_each(text: &mut String, form: Form<'_>, shares: &[Share<'_>]) -> Result<(), AllocError> {
    for share in shares {
        push_share(text, form, share)?;
    }
    Ok(())
}

// Appends the row of a section.
fn push_share(text: &mut String, form: Form<'_>, share: &Share<'_>) -> Result<(), AllocError> {
    match form {
        Form::Lines => push_line(text, share),
        Form::Objects(file, _) => push_object(text, file, share),
    }
}

fn push_line(text: &mut String, share: &Share<'_>) -> Result<(), AllocError> {
    let section = &share.section;
    push_sizes(
        text,
        u128::from(share.bytes),
        u128::from(section.memory_size),
    )?;
    push_name(text, section.segment, section.name)?;
    text.push_str("\n")
}

// Appends the numbers of a line.
fn push_sizes(text: &mut String, bytes: u128, memory: u128) -> Result<(), AllocError> {
    write!(text, "{bytes:>10} {memory:>10} ")
}

fn push_object(text: &mut String, file: &str, share: &Share<'_>) -> Result<(), AllocError> {
    let section = &share.section;
    push_start(text, file)?;
    push_text_member(text, "segment", section.segment)?;
    push_text_member(text, "section", section.name)?;
    push_type_member(text, section.kind)?;
    push_number_member(text, "flags", section.flags)?;
    push_number_member(text, "size", share.bytes)?;
    push_number_member(text, "memory", section.memory_size)?;
    text.push_str("}\n")?;
    Ok(())
}

// Appends the row that sums up these shares.
fn push_others(
    alloc: Global,
    text: &mut String,
    form: Form<'_>,
    others: &[Share<'_>],
) -> Result<(), AllocError> {
    let mut label = String::new(alloc);
    write!(label, "[{} others]", others.len())?;
    push_plain(
        text,
        form,
        label.as_str(),
        total_of(others),
        memory_of(others),
    )
}

// How many bytes count for sections.
fn total_of(shares: &[Share<'_>]) -> u128 {
    let bytes = shares.iter().map(|share| u128::from(share.bytes));
    bytes.sum()
}

// How many bytes they have in memory.
fn memory_of(shares: &[Share<'_>]) -> u128 {
    let sizes = shares
        .iter()
        .map(|share| u128::from(share.section.memory_size));
    sizes.sum()
}

// Appends the row of what is no section.
fn push_plain(
    text: &mut String,
    form: Form<'_>,
    label: &str,
    bytes: u128,
    memory: u128,
) -> Result<(), AllocError> {
    match form {
        Form::Lines => {
            push_sizes(text, bytes, memory)?;
            text.push_str(label)?;
            text.push_str("\n")
        }
        Form::Objects(file, _) => push_plain_object(text, file, label, bytes, memory),
    }
}

fn push_plain_object(
    text: &mut String,
    file: &str,
    label: &str,
    bytes: u128,
    memory: u128,
) -> Result<(), AllocError> {
    push_start(text, file)?;
    push_text_member(text, "segment", None)?;
    push_text_member(text, "section", Some(label))?;
    push_text_member(text, "type", None)?;
    push_text_member(text, "flags", None)?;
    push_long_member(text, "size", bytes)?;
    push_long_member(text, "memory", memory)?;
    text.push_str("}\n")?;
    Ok(())
}

// Appends a member whose value is a number, which may have more than 64 bits.
pub(crate) fn push_long_member(text: &mut String, name: &str, value: u128) -> Result<(), AllocError> {
    write!(text, ",\"{name}\":{value}")
}
