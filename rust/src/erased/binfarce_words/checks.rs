// From crates/binfarce_words/src/checks.rt, by tools/erase.

//! What is wrong with options and operands that exclude or need each other.

use crate::erased::binfarce_words::argument::Argument;
use crate::erased::binfarce_words::command::Command;
use crate::erased::binfarce_words::flag::Flag;
use crate::erased::binfarce_words::given::Arguments;
use crate::erased::binfarce_words::named::Named;
use crate::erased::binfarce_words::takes::is_relative;
use crate::erased::binfarce_words::wrong::Wrong;

// What is wrong with what is given: two options that exclude each other, or the operands.
pub(crate) fn check<'a>(command: Command, given: &Arguments<'a>) -> Result<(), Wrong<'a>> {
    if are_given(given, Flag::All, Flag::Section) {
        return Err(Wrong::Exclusive(Flag::All, Flag::Section));
    }
    if are_given(given, Flag::Raw, Flag::Full) {
        return Err(Wrong::Exclusive(Flag::Raw, Flag::Full));
    }
    if are_given(given, Flag::Annotate, Flag::Json) {
        return Err(Wrong::Exclusive(Flag::Annotate, Flag::Json));
    }
    if is_of_bytes(command, given) && given.has(Flag::Json) {
        return Err(Wrong::BytesAsJson);
    }
    if are_given(given, Flag::Base, Flag::Maps) {
        return Err(Wrong::Exclusive(Flag::Base, Flag::Maps));
    }
    if are_given(given, Flag::Base, Flag::Offsets) {
        return Err(Wrong::Exclusive(Flag::Base, Flag::Offsets));
    }
    if are_given(given, Flag::Maps, Flag::Offsets) {
        return Err(Wrong::Exclusive(Flag::Maps, Flag::Offsets));
    }
    if given.has(Flag::Bare) && !given.has(Flag::Annotate) {
        return Err(Wrong::Needs(Flag::Bare, Flag::Annotate));
    }
    if given.has(Flag::Annotate) && !is_each(given, Flag::Base) {
        return Err(Wrong::NotEach(Flag::Base));
    }
    if given.has(Flag::Annotate) && !is_each(given, Flag::As) {
        return Err(Wrong::NotEach(Flag::As));
    }
    check_undefined(given)?;
    check_sums(command, given)?;
    check_operands(command, given.has(Flag::Id), given.operands.as_slice())
}

// What is wrong beside `--undefined`: an option of function symbols.
fn check_undefined<'a>(given: &Arguments<'a>) -> Result<(), Wrong<'a>> {
    if given.has(Flag::Undefined) {
        if let Some(flag) = of_symbols(given) {
            return Err(Wrong::Exclusive(Flag::Undefined, flag));
        }
    }
    Ok(())
}

// The first option that is given, and that function symbols alone have.
fn of_symbols(given: &Arguments<'_>) -> Option<Flag> {
    if given.has(Flag::Sort) {
        Some(Flag::Sort)
    } else if given.has(Flag::First) {
        Some(Flag::First)
    } else if given.has(Flag::NoTotal) {
        Some(Flag::NoTotal)
    } else if given.has(Flag::Section) {
        Some(Flag::Section)
    } else if given.has(Flag::Dynamic) {
        Some(Flag::Dynamic)
    } else if given.has(Flag::All) {
        Some(Flag::All)
    } else {
        None
    }
}

// What is wrong with how sums are asked for.
fn check_sums<'a>(command: Command, given: &Arguments<'a>) -> Result<(), Wrong<'a>> {
    if are_given(given, Flag::Folded, Flag::First) {
        return Err(Wrong::Exclusive(Flag::Folded, Flag::First));
    }
    if given.is_by_section() {
        if let Some(flag) = of_functions(command, given) {
            return Err(Wrong::OnlyFunctions(flag));
        }
    }
    match given.value(Flag::FailAbove) {
        Some(word) if command == Command::Size && is_relative(word) => Err(Wrong::OnlyGrowth(word)),
        _ => Ok(()),
    }
}

// The first option that is given, and that the sums of sections don't have.
fn of_functions(command: Command, given: &Arguments<'_>) -> Option<Flag> {
    if given.has(Flag::Std) {
        Some(Flag::Std)
    } else if given.has(Flag::Section) {
        Some(Flag::Section)
    } else if given.has(Flag::Dynamic) {
        Some(Flag::Dynamic)
    } else if given.has(Flag::All) {
        Some(Flag::All)
    } else if command == Command::Size && given.has(Flag::Percent) {
        Some(Flag::Percent)
    } else {
        None
    }
}

// Whether an option comes as often as there are files, or not at all; of one file it may come often.
fn is_each(given: &Arguments<'_>, flag: Flag) -> bool {
    let files = given.operands.len();
    let times = times_given(given.options.as_slice(), flag.name());
    files < 2 || times == 0 || times == files
}

// How many of these options have this name.
fn times_given(options: &[(Flag, &str)], name: &str) -> usize {
    options.iter().filter(|it| it.0.name() == name).count()
}

// Whether both options are given.
fn are_given(given: &Arguments<'_>, one: Flag, other: Flag) -> bool {
    given.has(one) && given.has(other)
}

// Whether the bytes of a section are asked for.
fn is_of_bytes(command: Command, given: &Arguments<'_>) -> bool {
    match command {
        Command::Section => !given.has(Flag::Id) && given.operands.len() == 2,
        _ => false,
    }
}

// What is wrong with the operands of a command, which may ask for the identities of files.
fn check_operands<'a>(
    command: Command,
    has_id: bool,
    operands: &[Argument<'a>],
) -> Result<(), Wrong<'a>> {
    match (command, operands) {
        (Command::Filter, _) => Ok(()),
        (_, []) => Err(Wrong::NoFile(command)),
        (Command::Diff, [_]) => Err(Wrong::NoSecondFile),
        (Command::Diff, [_, _, more, ..]) => exceeded(*more),
        (Command::Section, [_, _, more, ..]) if !has_id => exceeded(*more),
        (Command::Map, [_, more, ..]) => exceeded(*more),
        _ => Ok(()),
    }
}

// A call with this argument has one too many.
fn exceeded(more: Argument<'_>) -> Result<(), Wrong<'_>> {
    Err(Wrong::TooMany(more.required()?))
}
