// From crates/binfarce_v0/src/consts.rt, by tools/erase.

//! Printing a const.

use crate::erased::binfarce_v0::productions::{print, print_target};
use crate::erased::binfarce_v0_grammar::forms::{ConstForm, ConstValue, const_form};
use crate::erased::binfarce_v0_state::fragments::Production;
use crate::erased::binfarce_v0_state::nesting::Nesting;
use crate::erased::binfarce_v0_state::state::Printer;
use crate::shim::alloc::AllocError;

/// `<const>`. It is kept where a back reference may name it.
pub fn print_const(printer: &mut Printer<'_>, here: Nesting) -> Result<(), AllocError> {
    print(printer, here.outside(), Production::Const)?;
    Ok(())
}

// A const by the letter that it begins with.
pub(crate) fn print_const_by_letter(
    printer: &mut Printer<'_>,
    here: Nesting,
) -> Result<(), AllocError> {
    match const_form(printer.part, printer.at) {
        ConstForm::Nothing => printer.invalid_syntax(),
        ConstForm::UntypedPlaceholder(after) => {
            printer.seek(Some(after));
            printer.write("_")
        }
        ConstForm::Placeholder(type_name, after) => {
            printer.seek(Some(after));
            printer.write("_")?;
            print_type_name(printer, type_name)
        }
        ConstForm::Value(type_name, value, after) => {
            printer.seek(Some(after));
            printer.put(value)?;
            print_type_name(printer, type_name)
        }
        ConstForm::Invalid(negative, type_name) => {
            printer.seek(None);
            printer.write(if negative { "-?" } else { "?" })?;
            print_type_name(printer, type_name)
        }
        ConstForm::Back(target, after) => {
            print_target(printer, here.outside(), Production::Const, target, after)?;
            Ok(())
        }
    }
}

// The type of a const, after its value.
fn print_type_name(printer: &mut Printer<'_>, type_name: &'static str) -> Result<(), AllocError> {
    printer.write(": ")?;
    printer.write(type_name)
}
