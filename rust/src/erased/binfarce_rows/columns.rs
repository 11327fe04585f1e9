// From crates/binfarce_rows/src/columns.rt, by tools/erase.

//! Columns of sums and of changes, and the JSON members of changes.

use crate::shim::String;
use crate::shim::alloc::{AllocError, Global};

/// How many of all rows are shown, where the first ones are asked for.
pub fn count_of(first: Option<usize>, all: usize) -> usize {
    first.map_or(all, |first| first.min(all))
}

/// Appends a number and a blank: `{size:>10} `.
///
/// # Errors
///
/// `AllocError` if an allocation failed. The text is then unspecified.
pub fn push_size(text: &mut String, size: u64) -> Result<(), AllocError> {
    write!(text, "{size:>10} ")
}

/// The share of a number in a whole, in hundredths of a per cent, rounded down; 0 of a whole of 0.
pub fn hundredths(part: u64, whole: u64) -> u128 {
    let part = 10_000 * u128::from(part);
    part.checked_div(u128::from(whole)).unwrap_or(0)
}

/// Appends a change with its sign, and a blank: `{change:>11} `.
///
/// # Errors
///
/// `AllocError` if an allocation failed. The text is then unspecified.
pub fn push_change(alloc: Global, text: &mut String, old: u128, new: u128) -> Result<(), AllocError> {
    let mut change = String::new(alloc);
    write!(change, "{}{}", sign(old, new), old.abs_diff(new))?;
    push_padded(text, change.as_str(), 11)
}

/// Appends a change in per cent of the old number, `new` if that is 0, to the right of 10 columns, and a blank, if it
/// is wanted.
///
/// # Errors
///
/// `AllocError` if an allocation failed. The text is then unspecified.
pub fn push_growth(
    alloc: Global,
    text: &mut String,
    has_percent: bool,
    old: u64,
    new: u64,
) -> Result<(), AllocError> {
    if !has_percent {
        return Ok(());
    }
    let growth = growth_of(alloc, old, new)?;
    push_padded(text, growth.as_str(), 10)
}

/// Appends the member of a number of hundredths of a per cent, after a comma, with this sign.
///
/// # Errors
///
/// `AllocError` if an allocation failed. The text is then unspecified.
pub fn push_percent_member(text: &mut String, sign: &str, n: u128) -> Result<(), AllocError> {
    let per_cent = n / 100;
    write!(
        text,
        ",\"percent\":{sign}{per_cent}.{}{}",
        n / 10 % 10,
        n % 10
    )
}

/// Appends the member of a change in per cent of the old number, `null` if that is 0, after a comma, if it is wanted.
///
/// # Errors
///
/// `AllocError` if an allocation failed. The text is then unspecified.
pub fn push_growth_member(
    text: &mut String,
    has_percent: bool,
    old: u64,
    new: u64,
) -> Result<(), AllocError> {
    if !has_percent {
        return Ok(());
    }
    if old == 0 {
        return text.push_str(",\"percent\":null");
    }
    let minus = minus(u128::from(old), u128::from(new));
    push_percent_member(text, minus, hundredths(old.abs_diff(new), old))
}

/// Appends a member whose value is a change, after a comma. The member's name is written as it is.
///
/// # Errors
///
/// `AllocError` if an allocation failed. The text is then unspecified.
pub fn push_signed_member(
    text: &mut String,
    name: &str,
    old: u128,
    new: u128,
) -> Result<(), AllocError> {
    let minus = minus(old, new);
    let distance = old.abs_diff(new);
    write!(text, ",\"{name}\":{minus}{distance}")
}

// The sign of a change.
fn sign(old: u128, new: u128) -> &'static str {
    if new < old { "-" } else { "+" }
}

// The minus of a change as a number.
fn minus(old: u128, new: u128) -> &'static str {
    if new < old { "-" } else { "" }
}

// The change in per cent of the old number.
fn growth_of(alloc: Global, old: u64, new: u64) -> Result<String, AllocError> {
    if old == 0 {
        return String::from_str(alloc, "new");
    }
    let n = hundredths(old.abs_diff(new), old);
    let (sign, per_cent) = (sign(u128::from(old), u128::from(new)), n / 100);
    String::formatted(alloc, format_args!("{sign}{per_cent}.{}{}%", n / 10 % 10, n % 10))
}

// Appends a label to the right of so many columns, and a blank.
fn push_padded(text: &mut String, label: &str, width: usize) -> Result<(), AllocError> {
    let blanks = width.saturating_sub(label.len());
    write!(text, "{:>blanks$}{label} ", "")
}
