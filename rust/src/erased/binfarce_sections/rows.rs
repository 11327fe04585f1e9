// From crates/binfarce_sections/src/rows.rt, by tools/erase.

//! How many bytes of two files count for each name of their sections.

use crate::erased::binfarce_sections::changes::{Change, given_of};
use crate::erased::binfarce_sections::sums::SectionSums;
use crate::shim::alloc::{AllocError, Global};
use crate::shim::collections::BTreeMap;

/// How many bytes of an old file and of a new one count for each name of sections, and for `[headers and gaps]`. A name is
/// as `sum_sections` shows it, and the numbers of all sections of one name are added.
///
/// # Errors
///
/// `AllocError` if an allocation failed.
pub fn bytes_by_name<'a>(
    alloc: Global,
    old: &'a SectionSums<'a>,
    new: &'a SectionSums<'a>,
) -> Result<BTreeMap<&'a str, (u64, u64)>, AllocError> {
    let given = given_of(alloc, old, new)?;
    added(alloc, &given)
}

// The bytes of changes, by their names.
fn added<'a>(
    alloc: Global,
    changes: &[Change<'a>],
) -> Result<BTreeMap<&'a str, (u64, u64)>, AllocError> {
    let mut rows = BTreeMap::new(alloc);
    for change in changes {
        add(&mut rows, change.name, change.old, change.new)?;
    }
    Ok(rows)
}

// Adds bytes of both files to those of a name, each number up to 2^64 - 1.
fn add<'a>(
    rows: &mut BTreeMap<&'a str, (u64, u64)>,
    name: &'a str,
    old: u64,
    new: u64,
) -> Result<(), AllocError> {
    match rows.get_mut(name) {
        Some(bytes) => *bytes = (bytes.0.saturating_add(old), bytes.1.saturating_add(new)),
        None => {
            let _ = rows.insert(name, (old, new))?;
        }
    }
    Ok(())
}
