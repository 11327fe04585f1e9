// From crates/binfarce_calls/src/limits.rt, by tools/erase.

//! Limits on rows: of two files, and of sections.

use crate::shim::{String, Vec};
use crate::erased::binfarce_figures::claims::Claims;
use crate::erased::binfarce_figures::diff::{Growth, sizes_of};
use crate::erased::binfarce_figures::key::Grouping;
use crate::erased::binfarce_figures::sums::Numbers;
use crate::erased::binfarce_limits::excess::Counted;
use crate::erased::binfarce_limits::rows::{Finding, RowLimit, Rows, judge};
use crate::erased::binfarce_sections::rows::bytes_by_name;
use crate::erased::binfarce_sections::sums::SectionSums;
use crate::shim::alloc::{AllocError, Global};
use crate::shim::collections::BTreeMap;

// The name of the row of whole files.
const TOTAL: &str = "[total]";

/// Which rows of the changes between two files' function symbols are above their limits, and which limits have no row.
///
/// # Errors
///
/// `AllocError` if an allocation fails.
pub(crate) fn changed_rows(
    alloc: Global,
    limits: &[RowLimit<'_>],
    old: &Claims<'_, '_>,
    new: &Claims<'_, '_>,
    grouping: Grouping,
) -> Result<Vec<Finding>, AllocError> {
    if limits.is_empty() {
        return Ok(Vec::new(alloc));
    }
    let numbers = sizes_of(alloc, Some(old), new, grouping)?;
    let total = Growth {
        old: old.total(),
        new: new.total(),
    };
    let rows = KeyRows {
        numbers: &numbers,
        total,
    };
    judge(alloc, limits, &rows)
}

// The rows of changes by a key.
#[derive(Clone, Copy)]
struct KeyRows<'a> {
    numbers: &'a BTreeMap<String, Numbers>,
    total: Growth,
}

impl Rows for KeyRows<'_> {
    fn counted(&self, name: &str) -> Option<Counted> {
        if name == TOTAL {
            return Some(Counted::Growth(self.total.old, self.total.new));
        }
        match self.numbers.get(name) {
            Some(numbers) => Some(Counted::Growth(numbers.sum, numbers.other)),
            None => None,
        }
    }
}

/// Which rows of the bytes of a file's sections are above their limits, and which limits have no row.
///
/// # Errors
///
/// `AllocError` if an allocation fails.
pub(crate) fn section_rows(
    alloc: Global,
    limits: &[RowLimit<'_>],
    sums: &SectionSums<'_>,
) -> Result<Vec<Finding>, AllocError> {
    if limits.is_empty() {
        return Ok(Vec::new(alloc));
    }
    let empty = SectionSums::none(alloc);
    let bytes = bytes_by_name(alloc, &empty, sums)?;
    judge(alloc, limits, &SizeRows(bytes))
}

// The rows of sections by their names.
struct SizeRows<'a>(BTreeMap<&'a str, (u64, u64)>);

impl Rows for SizeRows<'_> {
    fn counted(&self, name: &str) -> Option<Counted> {
        match self.0.get(name) {
            Some(bytes) => Some(Counted::Size(bytes.1)),
            None => None,
        }
    }
}

/// Which rows of the changes between the bytes of two files' sections are above their limits, and which limits have no row.
///
/// # Errors
///
/// `AllocError` if an allocation fails.
pub(crate) fn changed_sections(
    alloc: Global,
    limits: &[RowLimit<'_>],
    old: &SectionSums<'_>,
    new: &SectionSums<'_>,
) -> Result<Vec<Finding>, AllocError> {
    if limits.is_empty() {
        return Ok(Vec::new(alloc));
    }
    let bytes = bytes_by_name(alloc, old, new)?;
    let total = Growth {
        old: old.file_length(),
        new: new.file_length(),
    };
    judge(alloc, limits, &NameRows { bytes, total })
}

// The rows of changes of sections by their names.
struct NameRows<'a> {
    bytes: BTreeMap<&'a str, (u64, u64)>,
    total: Growth,
}

impl Rows for NameRows<'_> {
    fn counted(&self, name: &str) -> Option<Counted> {
        if name == TOTAL {
            return Some(Counted::Growth(self.total.old, self.total.new));
        }
        match self.bytes.get(name) {
            Some(bytes) => Some(Counted::Growth(bytes.0, bytes.1)),
            None => None,
        }
    }
}
