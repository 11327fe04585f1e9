// From crates/binfarce_v0/src/productions.rt, by tools/erase.

//! Printing a path, a type or a const, once for every production: it is kept where a back reference may name it.

use crate::erased::binfarce_v0::consts::print_const_by_letter;
use crate::erased::binfarce_v0::paths::print_path_by_letter;
use crate::erased::binfarce_v0::types::print_type_by_letter;
use crate::erased::binfarce_v0_state::fragments::{FragmentKey, Production};
use crate::erased::binfarce_v0_state::nesting::Nesting;
use crate::erased::binfarce_v0_state::state::Printer;
use crate::shim::alloc::AllocError;

// A production. Returns whether it was left open.
#[cfg_attr(not(debug_assertions), inline(always))]
pub fn print(
    printer: &mut Printer<'_>,
    here: Nesting,
    production: Production,
) -> Result<bool, AllocError> {
    match printer.keeps_at() {
        Some(at) => print_and_keep(printer, here, production, at),
        None => print_anew(printer, here, production),
    }
}

// A production that is kept.
#[inline(never)]
fn print_and_keep(
    printer: &mut Printer<'_>,
    here: Nesting,
    production: Production,
    at: usize,
) -> Result<bool, AllocError> {
    let mark = printer.mark(here.levels_left, at);
    let opened = print_anew(printer, here, production)?;
    printer.keep(
        mark,
        here.levels_left,
        here.binder_depth,
        production,
        opened,
    )?;
    Ok(opened)
}

// A production from its position.
#[cfg_attr(not(debug_assertions), inline(always))]
fn print_anew(
    printer: &mut Printer<'_>,
    here: Nesting,
    production: Production,
) -> Result<bool, AllocError> {
    let Some(below) = printer.enter(here) else {
        return Ok(false);
    };
    print_by_letter(printer, below, production)
}

// A production by the letter that it begins with.
#[cfg_attr(not(debug_assertions), inline(always))]
fn print_by_letter(
    printer: &mut Printer<'_>,
    here: Nesting,
    production: Production,
) -> Result<bool, AllocError> {
    match production {
        Production::Path(position) => {
            return print_path_by_letter(printer, here, position);
        }
        Production::Type => print_type_by_letter(printer, here)?,
        Production::Const => print_const_by_letter(printer, here)?,
    }
    Ok(false)
}

// The target of a back reference: a production, printed from the position that it names.
pub fn print_target(
    printer: &mut Printer<'_>,
    here: Nesting,
    production: Production,
    target: usize,
    after: usize,
) -> Result<bool, AllocError> {
    let key = FragmentKey {
        production,
        at: target,
        binder_depth: here.binder_depth,
    };
    if let Some(opened) = printer.print_kept(here.levels_left, key, after)? {
        return Ok(opened);
    }
    printer.look_for_targets()?;
    let in_back_reference = printer.in_back_reference;
    printer.enter_target(target);
    let opened = print(printer, here, production)?;
    printer.leave_target(after, in_back_reference);
    Ok(opened)
}
