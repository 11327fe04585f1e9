// From crates/binfarce_words/src/call.rt, by tools/erase.

//! The call that the arguments mean.

use crate::erased::binfarce_words::argument::Argument;
use crate::erased::binfarce_words::checks::check;
use crate::erased::binfarce_words::command::{COMMANDS, Command};
use crate::erased::binfarce_words::flag::Flag;
use crate::erased::binfarce_words::given::Arguments;
use crate::erased::binfarce_words::named::{Named, nearest};
use crate::erased::binfarce_words::reading::read_given;
use crate::erased::binfarce_words::wrong::Wrong;
use crate::shim::alloc::Global;

/// A call.
#[derive(Debug)]
pub enum Call<'a> {
    /// Help on the program, or on a command.
    Help(Option<Command>),
    /// The program's version.
    Version,
    /// A command's work.
    Run(Command, Arguments<'a>),
}

/// The call that the arguments after the program's own name mean.
///
/// # Errors
///
/// A `Wrong` that names what is wrong: `NotUtf8` with the position of the first argument that isn't UTF-8, before
/// anything else, unless the call is one of `list` or `size`, and right, and each such argument is an operand;
/// `OutOfMemory` if an allocation fails.
pub fn read_call<'a>(alloc: Global, arguments: &[Argument<'a>]) -> Result<Call<'a>, Wrong<'a>> {
    let read = read_arguments(alloc, arguments);
    match first_not_utf8(arguments) {
        Some(at) => check_utf8(at, read),
        None => read,
    }
}

// The position of the first of these arguments that isn't UTF-8.
fn first_not_utf8(arguments: &[Argument<'_>]) -> Option<usize> {
    for argument in arguments {
        if let Argument::NotUtf8(at) = argument {
            return Some(*at);
        }
    }
    None
}

// The call that was read, if it goes on with its other files where the argument at this position isn't UTF-8.
fn check_utf8<'a>(at: usize, read: Result<Call<'a>, Wrong<'a>>) -> Result<Call<'a>, Wrong<'a>> {
    let call = match read {
        Ok(call) => call,
        Err(Wrong::OutOfMemory) => return Err(Wrong::OutOfMemory),
        Err(_) => return Err(Wrong::NotUtf8(at)),
    };
    if goes_on(&call) {
        Ok(call)
    } else {
        Err(Wrong::NotUtf8(at))
    }
}

// Whether the call goes on with its other files where the name of one isn't UTF-8.
fn goes_on(call: &Call<'_>) -> bool {
    matches!(call, Call::Run(Command::List | Command::Size, _))
}

// The call that these arguments mean, if one that isn't UTF-8 may be an operand of any command.
fn read_arguments<'a>(alloc: Global, arguments: &[Argument<'a>]) -> Result<Call<'a>, Wrong<'a>> {
    let [first, others @ ..] = arguments else {
        return Err(Wrong::NoCommand);
    };
    let word = first.required()?;
    if word == "help" || word == "--help" || word == "-h" {
        return read_help(others);
    }
    if word == "--version" || word == "-V" {
        return Ok(Call::Version);
    }
    let command = command_named(word)?;
    let given = read_given(alloc, command, others)?;
    if given.has(Flag::Help) {
        return Ok(Call::Help(Some(command)));
    }
    check(command, &given)?;
    Ok(Call::Run(command, given))
}

// `help`, and the command that it is about.
fn read_help<'a>(others: &[Argument<'a>]) -> Result<Call<'a>, Wrong<'a>> {
    match others {
        [] => Ok(Call::Help(None)),
        [topic, ..] => Ok(Call::Help(Some(command_named(topic.required()?)?))),
    }
}

// The command of this name.
fn command_named(word: &str) -> Result<Command, Wrong<'_>> {
    match COMMANDS.iter().copied().find(|it| it.name() == word) {
        Some(command) => Ok(command),
        None => Err(Wrong::UnknownCommand(word, nearest(&COMMANDS, word, 0))),
    }
}
