// From crates/binfarce_v0/src/lists.rt, by tools/erase.

//! Printing the lists of a v0 name: arguments, types, and traits with their bindings.

use crate::erased::binfarce_v0::consts::print_const;
use crate::erased::binfarce_v0::paths::print_path;
use crate::erased::binfarce_v0::types::print_type;
use crate::erased::binfarce_v0_grammar::forms::{Listed, lifetime_form};
use crate::erased::binfarce_v0_grammar::identifiers::undisambiguated_at;
use crate::erased::binfarce_v0_grammar::positions::{eat, list_end, required_end};
use crate::erased::binfarce_v0_state::nesting::Nesting;
use crate::erased::binfarce_v0_state::position::Position;
use crate::erased::binfarce_v0_state::state::Printer;
use crate::erased::binfarce_v0_state::text::ArgumentLifetime;
use crate::shim::alloc::AllocError;

// A list up to its `E`: how many items it has.
pub fn print_items(
    printer: &mut Printer<'_>,
    here: Nesting,
    listed: Listed,
    between: &'static str,
) -> Result<usize, AllocError> {
    let most = printer.steps_left + 1;
    for count in 0..most {
        if let Some(after) = list_end(printer.part.as_bytes(), printer.at) {
            printer.seek(after);
            return Ok(count);
        }
        printer.write(if count == 0 { "" } else { between })?;
        print_item(printer, here, listed)?;
    }
    printer.stop();
    Ok(most)
}

// An item of a list.
fn print_item(printer: &mut Printer<'_>, here: Nesting, listed: Listed) -> Result<(), AllocError> {
    match listed {
        Listed::Types => print_type(printer, here),
        Listed::Arguments => print_argument(printer, here),
        Listed::Traits => {
            let opened = print_path(printer, here, Position::OpenTrait)?;
            print_bindings(printer, here, opened)
        }
    }
}

// `<generic-arg>`
fn print_argument(printer: &mut Printer<'_>, here: Nesting) -> Result<(), AllocError> {
    let bytes = printer.part.as_bytes();
    if eat(bytes, b'L', printer.at).is_some() {
        let (life, after) = lifetime_form(bytes, printer.at);
        printer.visit();
        if printer.take(1) {
            printer.seek(required_end(here.binder_depth, life, after));
            printer.put(ArgumentLifetime(here.binder_depth, life))?;
        }
        return Ok(());
    }
    match eat(bytes, b'K', printer.at) {
        Some(after) => {
            printer.seek(Some(after));
            print_const(printer, here)
        }
        None => print_type(printer, here),
    }
}

// The bindings of a trait.
fn print_bindings(
    printer: &mut Printer<'_>,
    here: Nesting,
    mut opened: bool,
) -> Result<(), AllocError> {
    let most = printer.steps_left + 1;
    for _turn in 0..most {
        let Some(start) = eat(printer.part.as_bytes(), b'p', printer.at) else {
            return printer.write(if opened { ">" } else { "" });
        };
        printer.write(if opened { ", " } else { "<" })?;
        let Some((binding, after)) = undisambiguated_at(printer.part, start) else {
            return printer.invalid_syntax();
        };
        printer.seek(Some(after));
        printer.put(binding)?;
        printer.write(" = ")?;
        print_type(printer, here)?;
        opened = true;
    }
    printer.stop();
    Ok(())
}
