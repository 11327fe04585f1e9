// From crates/binfarce_figures/src/stacks.rt, by tools/erase.

//! Function symbols as stacks.

use crate::shim::String;
use crate::erased::binfarce_figures::claims::Claims;
use crate::erased::binfarce_figures::generic::{Shape, push_rewritten};
use crate::erased::binfarce_figures::key::{Grouping, Key, KeyMaker, put_key};
use crate::erased::binfarce_tools::list::Sink;
use crate::erased::binfarce_tools::report::{ReportError, write_made};
use crate::shim::alloc::{AllocError, Global};

/// Writes a line for each function symbol that adds bytes, as tools for flame graphs read it: a stack, a blank, and the
/// number of these bytes.
///
/// A stack is the crate that `sum_by` counts the function symbol for, and the parts of the trimmed name, which `::`
/// outside of brackets separates, with `;` between them. The first part is left out where it is the crate: of a crate
/// `foo` the function `foo::bar` is `foo;bar`, and `foo` is `foo`, as `foo;foo` is `foo::foo`. A `;` in a name is shown
/// as `:`. With `joins_std` the stack of all functions of Rust's standard library is `[std]`. Inner function symbols come
/// before outer ones. The lines are made before the first byte is written.
///
/// # Errors
///
/// As `sum_by`.
pub fn fold_claims<S: Sink>(
    alloc: Global,
    claims: &Claims<'_, '_>,
    joins_std: bool,
    out: &mut S,
) -> Result<(), ReportError> {
    write_made(out, stacks_of(alloc, claims, joins_std))
}

// The lines of function symbols with their stacks.
fn stacks_of(alloc: Global, claims: &Claims<'_, '_>, joins_std: bool) -> Result<String, AllocError> {
    let grouping = Grouping {
        key: Key::Stack,
        joins_std,
    };
    let mut maker = KeyMaker::new(alloc);
    let mut stack = String::new(alloc);
    let mut text = String::new(alloc);
    for claim in &claims.list {
        put_key(
            &mut maker,
            &mut stack,
            claims.tables,
            *claim,
            claims.size,
            grouping,
        )?;
        push_claim(&mut text, stack.as_str(), claim.function.size)?;
    }
    Ok(text)
}

// Appends the line of a function symbol with this stack, if it adds bytes.
fn push_claim(text: &mut String, stack: &str, size: u64) -> Result<(), AllocError> {
    if size == 0 {
        return Ok(());
    }
    text.push_str(stack)?;
    text.push_str(" ")?;
    push_decimal(text, size)?;
    text.push_str("\n")
}

// Appends a number, as `{}` writes it.
fn push_decimal(text: &mut String, n: u64) -> Result<(), AllocError> {
    if n >= 10 {
        push_decimal(text, n / 10)?;
    }
    text.push(char::from(b'0' + (n % 10) as u8))
}

/// Appends the stack of a function with this crate and this trimmed name. `root` and `parts` are overwritten.
pub(crate) fn push_stack(
    text: &mut String,
    root: &mut String,
    parts: &mut String,
    crate_name: &str,
    trimmed: &str,
) -> Result<(), AllocError> {
    root.clear();
    push_rewritten(root, Shape::Stack, crate_name)?;
    parts.clear();
    push_rewritten(parts, Shape::Stack, trimmed)?;
    push_below(text, root, parts.as_str())
}

// Appends the crate and the parts of a name, unless the first of these is the crate. `root` is overwritten.
fn push_below(text: &mut String, root: &mut String, parts: &str) -> Result<(), AllocError> {
    let is_crate = parts == root.as_str();
    root.push_str(";")?;
    if !is_crate && !parts.as_bytes().starts_with(root.as_bytes()) {
        text.push_str(root.as_str())?;
    }
    text.push_str(parts)
}
