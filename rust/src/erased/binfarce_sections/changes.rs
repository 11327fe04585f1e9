// From crates/binfarce_sections/src/changes.rt, by tools/erase.

//! How the bytes of the sections of two files differ.

use crate::shim::{String, Vec};
use crate::erased::binfarce_sections::error::SectionError;
use crate::erased::binfarce_sections::sums::{REST, SectionSums, push_long_member};
use crate::erased::binfarce_rows::columns::{
    count_of, push_change, push_growth, push_growth_member, push_signed_member, push_size,
};
use crate::erased::binfarce_rows::json::{Form, push_number_member, push_start, push_text_member};
use crate::erased::binfarce_tools::list::Sink;
use crate::erased::binfarce_tools::writing::write_whole;
use crate::shim::alloc::{AllocError, Global};
use core::cmp::Reverse;

/// A name of sections, with its bytes in two files.
#[derive(Debug, Clone, Copy)]
pub struct Change<'a> {
    /// The name, as `sum_sections` shows it.
    pub name: &'a str,
    /// How many bytes of the old file count for it.
    pub old: u64,
    /// How many bytes of the new file count for it.
    pub new: u64,
    /// How many bytes it has in memory by the old file.
    pub old_memory: u128,
    /// How many bytes it has in memory by the new file.
    pub new_memory: u128,
}

/// Writes a row for each name of sections, and for `[headers and gaps]`, whose bytes in the file or in memory differ
/// between two files, and one for the whole files.
///
/// A name is as `sum_sections` shows it, and the numbers of all sections of one name are added: also those of a section
/// that is named `[headers and gaps]`. The greatest difference of bytes in the file comes first, of one difference the
/// greatest in memory, and those of one rank are in the order of the names' bytes.
///
/// A line is `{old:>10} {new:>10} {change:>11} {memory change:>11} {name}`; a change has its sign. Before the name it
/// has, if that is wanted, the change of the bytes in the file in per cent of the old number, with two decimals and to
/// the right of 10 columns, as `+12.50%`: rounded toward zero, and `new` if the old number is 0. `[N others]` is the
/// name of the line that sums up those past the first; the last line, `[total]`, has the lengths of the files, and the
/// memory of all sections. An object has the members `file`, which is the new one's name, `section`, which is `null`
/// without a name, `old`, `new`, `change`, `old_memory`, `new_memory`, `memory_change` and, if that is wanted, `percent`,
/// which is `null` if the old number is 0.
///
/// # Errors
///
/// Those of `sum_sections`.
pub fn diff_sections<S: Sink>(
    alloc: Global,
    old: &SectionSums<'_>,
    new: &SectionSums<'_>,
    first: Option<usize>,
    has_percent: bool,
    form: Form<'_>,
    out: &mut S,
) -> Result<(), SectionError> {
    let layout = Layout {
        alloc,
        form,
        has_percent,
    };
    let text = layout.text_of(first, old, new)?;
    write_whole(out, text.as_bytes()).map_err(|_| SectionError::Write)
}

// The changes from the sums of a file to those of another.
fn changes_of<'a>(
    alloc: Global,
    old: &'a SectionSums<'a>,
    new: &'a SectionSums<'a>,
) -> Result<Vec<Change<'a>>, AllocError> {
    let mut given = given_of(alloc, old, new)?;
    given.sort_by_key(|change| change.name)?;
    let mut changes = joined_of(alloc, &given)?;
    changes.sort_by_key(|change| Reverse(distance(change.old_memory, change.new_memory)))?;
    changes.sort_by_key(|change| Reverse(distance(
        u128::from(change.old),
        u128::from(change.new),
    )))?;
    Ok(changes)
}

// How much two numbers differ.
fn distance(old: u128, new: u128) -> u128 {
    old.abs_diff(new)
}

// A change for each part.
pub(crate) fn given_of<'a>(
    alloc: Global,
    old: &'a SectionSums<'a>,
    new: &'a SectionSums<'a>,
) -> Result<Vec<Change<'a>>, AllocError> {
    let mut given = Vec::new(alloc);
    for share in &old.shares {
        given.push(old_change(share.name(), share.bytes, share.section.memory_size))?;
    }
    given.push(old_change(REST, old.rest, 0))?;
    for share in &new.shares {
        given.push(new_change(share.name(), share.bytes, share.section.memory_size))?;
    }
    given.push(new_change(REST, new.rest, 0))?;
    Ok(given)
}

// The change that a part of the old file makes alone.
fn old_change(name: &str, bytes: u64, memory: u64) -> Change<'_> {
    Change {
        name,
        old: bytes,
        new: 0,
        old_memory: u128::from(memory),
        new_memory: 0,
    }
}

// The change that a part of the new file makes alone.
fn new_change(name: &str, bytes: u64, memory: u64) -> Change<'_> {
    Change {
        name,
        old: 0,
        new: bytes,
        old_memory: 0,
        new_memory: u128::from(memory),
    }
}

// Changes whose neighbours of one name are made one, without those that change nothing.
fn joined_of<'a>(alloc: Global, changes: &[Change<'a>]) -> Result<Vec<Change<'a>>, AllocError> {
    let mut joined = Vec::new(alloc);
    let Some((first, others)) = changes.split_first() else {
        return Ok(joined);
    };
    let mut last = *first;
    for next in others {
        if last.name == next.name {
            last = added(last, *next);
        } else {
            push_differing(&mut joined, last)?;
            last = *next;
        }
    }
    push_differing(&mut joined, last)?;
    Ok(joined)
}

// The sum of two changes.
fn added<'a>(a: Change<'a>, b: Change<'a>) -> Change<'a> {
    Change {
        name: a.name,
        old: a.old + b.old,
        new: a.new + b.new,
        old_memory: a.old_memory + b.old_memory,
        new_memory: a.new_memory + b.new_memory,
    }
}

// Adds a change, if it changes something.
fn push_differing<'a>(kept: &mut Vec<Change<'a>>, change: Change<'a>) -> Result<(), AllocError> {
    if change.old == change.new && change.old_memory == change.new_memory {
        return Ok(());
    }
    kept.push(change)?;
    Ok(())
}

// How changes are shown.
pub(crate) struct Layout<'a> {
    pub alloc: Global,
    pub form: Form<'a>,
    pub has_percent: bool,
}

impl Layout<'_> {
    // The whole text.
    fn text_of(
        &self,
        first: Option<usize>,
        old: &SectionSums<'_>,
        new: &SectionSums<'_>,
    ) -> Result<String, AllocError> {
        let changes = changes_of(self.alloc, old, new)?;
        let mut text = self.first_rows(first, &changes)?;
        let total = Change {
            name: "[total]",
            old: old.file_length,
            new: new.file_length,
            old_memory: old.memory,
            new_memory: new.memory,
        };
        self.push_row(&mut text, total)?;
        Ok(text)
    }

    // The rows of the first changes, and the one that sums up all others.
    fn first_rows(&self, first: Option<usize>, changes: &[Change<'_>]) -> Result<String, AllocError> {
        let count = count_of(first, changes.len());
        let mut text = self.each_row(&changes[..count])?;
        if count >= changes.len() {
            return Ok(text);
        }
        self.push_others(&mut text, &changes[count..])?;
        Ok(text)
    }

    // The rows of changes.
    fn each_row(&self, changes: &[Change<'_>]) -> Result<String, AllocError> {
        let mut text = String::new(self.alloc);
        for change in changes {
            self.push_row(&mut text, *change)?;
        }
        Ok(text)
    }

    // Appends the row that sums up these changes.
    fn push_others(&self, text: &mut String, others: &[Change<'_>]) -> Result<(), AllocError> {
        let mut label = String::new(self.alloc);
        write!(label, "[{} others]", others.len())?;
        let row = Change {
            name: label.as_str(),
            old: others.iter().map(|change| change.old).sum(),
            new: others.iter().map(|change| change.new).sum(),
            old_memory: others.iter().map(|change| change.old_memory).sum(),
            new_memory: others.iter().map(|change| change.new_memory).sum(),
        };
        self.push_row(text, row)
    }

    // Appends the row of a change.
    fn push_row(&self, text: &mut String, change: Change<'_>) -> Result<(), AllocError> {
        match self.form {
            Form::Lines => self.push_line(text, change),
            Form::Objects(file, _) => self.push_object(text, file, change),
        }
    }

    fn push_line(&self, text: &mut String, change: Change<'_>) -> Result<(), AllocError> {
        push_size(text, change.old)?;
        push_size(text, change.new)?;
        push_change(
            self.alloc,
            text,
            u128::from(change.old),
            u128::from(change.new),
        )?;
        push_change(self.alloc, text, change.old_memory, change.new_memory)?;
        push_growth(self.alloc, text, self.has_percent, change.old, change.new)?;
        text.push_str(change.name)?;
        text.push_str("\n")?;
        Ok(())
    }

    fn push_object(
        &self,
        text: &mut String,
        file: &str,
        change: Change<'_>,
    ) -> Result<(), AllocError> {
        push_start(text, file)?;
        push_text_member(text, "section", name_given(change.name))?;
        push_number_member(text, "old", change.old)?;
        push_number_member(text, "new", change.new)?;
        push_signed_member(
            text,
            "change",
            u128::from(change.old),
            u128::from(change.new),
        )?;
        push_long_member(text, "old_memory", change.old_memory)?;
        push_long_member(text, "new_memory", change.new_memory)?;
        push_signed_member(text, "memory_change", change.old_memory, change.new_memory)?;
        push_growth_member(text, self.has_percent, change.old, change.new)?;
        text.push_str("}\n")?;
        Ok(())
    }
}

// A name as a member of an object; sections without one have none.
fn name_given(name: &str) -> Option<&str> {
    if name.is_empty() { None } else { Some(name) }
}
