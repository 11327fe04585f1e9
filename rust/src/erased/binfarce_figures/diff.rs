// From crates/binfarce_figures/src/diff.rt, by tools/erase.

//! How the sums of two files differ.

use crate::shim::String;
use crate::erased::binfarce_figures::claims::Claims;
use crate::erased::binfarce_figures::figures::{Columns, Figure, Layout};
use crate::erased::binfarce_figures::key::Grouping;
use crate::erased::binfarce_figures::sums::{Counting, Figures, Numbers, add_claims};
use crate::erased::binfarce_rows::json::Form;
use crate::erased::binfarce_tools::list::Sink;
use crate::erased::binfarce_tools::report::{ReportError, write_made};
use crate::shim::alloc::{AllocError, Global};
use crate::shim::collections::BTreeMap;

/// The sums of all sizes of two files, each byte counted once.
#[derive(Debug, Clone, Copy, PartialEq)]
pub struct Growth {
    /// The old file's sum.
    pub old: u64,
    /// The new file's sum.
    pub new: u64,
}

/// Writes a line for each key whose sums in two files differ, the greatest difference first, those of one difference in
/// the order of the keys' bytes; and one for the sums of all sizes, of the key `[total]`. Each file is summed as
/// `sum_by` does. The sums of all sizes are returned.
///
/// A line is `{old:>10} {new:>10} {change:>11} {key}`; the change has its sign. Before the key it has, if that is
/// wanted, the change in per cent of the old sum, with two decimals and to the right of 10 columns, as `+12.50%`:
/// rounded toward zero, and `new` if the old sum is 0. `[N others]` is the key of the line that sums up the changes
/// past the first. An object has the members `file`, which is the new one's name, `name`, `old`, `new`, `change` and, if
/// that is wanted, `percent`, which is `null` if the old sum is 0.
///
/// # Errors
///
/// As `sum_by`.
pub fn diff<S: Sink>(
    alloc: Global,
    old: &Claims<'_, '_>,
    new: &Claims<'_, '_>,
    figures: &Figures,
    form: Form<'_>,
    out: &mut S,
) -> Result<Growth, ReportError> {
    write_made(out, text_of(alloc, figures, form, old, new))?;
    Ok(Growth {
        old: old.total,
        new: new.total,
    })
}

/// The sums of each key of function symbols: the first number in an old file, if there is one, and the other in a new one.
///
/// # Errors
///
/// `AllocError` if an allocation failed.
pub fn sizes_of(
    alloc: Global,
    old: Option<&Claims<'_, '_>>,
    new: &Claims<'_, '_>,
    grouping: Grouping,
) -> Result<BTreeMap<String, Numbers>, AllocError> {
    let mut numbers = BTreeMap::new(alloc);
    let Some(old) = old else {
        add_claims(alloc, new, grouping, Counting::New, &mut numbers)?;
        return Ok(numbers);
    };
    add_claims(alloc, old, grouping, Counting::Old, &mut numbers)?;
    add_claims(alloc, new, grouping, Counting::New, &mut numbers)?;
    Ok(numbers)
}

// The whole text.
fn text_of(
    alloc: Global,
    figures: &Figures,
    form: Form<'_>,
    old: &Claims<'_, '_>,
    new: &Claims<'_, '_>,
) -> Result<String, AllocError> {
    let mut numbers = BTreeMap::new(alloc);
    add_claims(alloc, old, figures.grouping, Counting::Old, &mut numbers)?;
    add_claims(alloc, new, figures.grouping, Counting::New, &mut numbers)?;
    let columns = Columns::Changes;
    let layout = Layout {
        alloc,
        figures,
        form,
        columns,
    };
    let mut text = layout.rows(&numbers)?;
    let total = Figure {
        name: "[total]",
        sum: old.total,
        other: new.total,
    };
    layout.push_row(&mut text, total)?;
    Ok(text)
}
