// From crates/binfarce_figures/src/map.rt, by tools/erase.

//! Sums by a key as a picture.

use crate::shim::{String, Vec};
use crate::erased::binfarce_figures::claims::Claims;
use crate::erased::binfarce_figures::key::Grouping;
use crate::erased::binfarce_figures::sums::{Numbers, numbers_of};
use crate::erased::binfarce_chart::bars::Bar;
use crate::erased::binfarce_chart::svg::chart;
use crate::erased::binfarce_tools::list::Sink;
use crate::erased::binfarce_tools::report::{ReportError, write_made};
use crate::shim::alloc::{AllocError, Global};
use crate::shim::collections::BTreeMap;

/// Draws the sums of `sum_by`: an SVG document with this title, and a bar for each key, the greatest first. The picture
/// is that of `binfarce_chart::svg::chart`, of the first bars if there is a number, and is made before its first byte is
/// written.
///
/// # Errors
///
/// As `sum_by`.
pub fn map_by<S: Sink>(
    alloc: Global,
    title: &str,
    claims: &Claims<'_, '_>,
    grouping: Grouping,
    first: Option<usize>,
    out: &mut S,
) -> Result<(), ReportError> {
    write_made(out, picture_of(alloc, title, grouping, first, claims))
}

// The whole picture.
fn picture_of(
    alloc: Global,
    title: &str,
    grouping: Grouping,
    first: Option<usize>,
    claims: &Claims<'_, '_>,
) -> Result<String, AllocError> {
    let numbers = numbers_of(alloc, claims, grouping)?;
    let bars = bars_of(alloc, &numbers)?;
    chart(alloc, title, bars.as_slice(), claims.size, first)
}

// A bar for each key, in the order of the keys' bytes.
fn bars_of<'a>(
    alloc: Global,
    numbers: &'a BTreeMap<String, Numbers>,
) -> Result<Vec<Bar<'a>>, AllocError> {
    let mut bars = Vec::new(alloc);
    for (name, pair) in numbers.iter() {
        bars.push(Bar {
            name: name.as_str(),
            size: pair.sum,
        })?;
    }
    Ok(bars)
}
