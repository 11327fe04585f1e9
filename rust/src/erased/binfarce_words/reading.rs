// From crates/binfarce_words/src/reading.rt, by tools/erase.

//! Options and operands, argument after argument.

use crate::shim::Vec;
use crate::erased::binfarce_words::argument::Argument;
use crate::erased::binfarce_words::command::Command;
use crate::erased::binfarce_words::flag::Flag;
use crate::erased::binfarce_words::given::Arguments;
use crate::erased::binfarce_words::named::nearest;
use crate::erased::binfarce_words::takes::Takes;
use crate::erased::binfarce_words::wrong::Wrong;
use crate::shim::alloc::Global;

// The options and operands of a command.
pub(crate) fn read_given<'a>(
    alloc: Global,
    command: Command,
    arguments: &[Argument<'a>],
) -> Result<Arguments<'a>, Wrong<'a>> {
    let mut reading = Reading {
        given: Arguments {
            options: Vec::new(alloc),
            operands: Vec::new(alloc),
        },
        waiting: None,
        are_operands: false,
    };
    for argument in arguments {
        match reading.take(command, *argument) {
            Ok(()) => {}
            Err(e) => return Err(e),
        }
    }
    match reading.waiting {
        None => Ok(reading.given),
        Some(flag) => Err(Wrong::NoValue(flag)),
    }
}

// Arguments that were read up to here.
struct Reading<'a> {
    given: Arguments<'a>,
    // The option whose value comes next.
    waiting: Option<Flag>,
    // `--` came: all further arguments are operands.
    are_operands: bool,
}

impl<'a> Reading<'a> {
    // Takes the next argument.
    fn take(&mut self, command: Command, argument: Argument<'a>) -> Result<(), Wrong<'a>> {
        let word = match (argument, self.waiting) {
            (Argument::Text(word), _) => word,
            (Argument::NotUtf8(at), Some(_)) => return Err(Wrong::NotUtf8(at)),
            (Argument::NotUtf8(_), None) => return self.given.push(argument),
        };
        if let Some(flag) = self.waiting {
            self.waiting = None;
            return self.given.set(flag, word);
        }
        if self.are_operands || !is_option(word) {
            return self.given.push(argument);
        }
        if word == "--" {
            self.are_operands = true;
            return Ok(());
        }
        let (name, value) = parts_of(word);
        let flag = flag_named(command, word, name)?;
        match (flag.form().2, value) {
            (Takes::Nothing, None) => self.given.set(flag, ""),
            (Takes::Nothing, Some(_)) => Err(unknown_option(command, word)),
            (_, Some(value)) => self.given.set(flag, value),
            (_, None) => {
                self.waiting = Some(flag);
                Ok(())
            }
        }
    }
}

// The option of the command that is written with this name.
fn flag_named<'a>(command: Command, word: &'a str, name: &str) -> Result<Flag, Wrong<'a>> {
    find_flag(command.flags(), name).ok_or_else(|| unknown_option(command, word))
}

// The first of these options that is written with this name.
fn find_flag(flags: &[Flag], name: &str) -> Option<Flag> {
    flags.iter().copied().find(|flag| flag.is_named(name))
}

fn unknown_option<'a>(command: Command, word: &'a str) -> Wrong<'a> {
    Wrong::UnknownOption(command, word, nearest(command.flags(), word, 2))
}

// Whether the word begins with `-`, and has more.
fn is_option(word: &str) -> bool {
    matches!(word.as_bytes(), [b'-', _, ..])
}

// The option and the value of a word: `-n3`; the parts before and after its first `=`; or the word alone.
fn parts_of(word: &str) -> (&str, Option<&str>) {
    if let Some(value) = after_short(word) {
        return ("-n", Some(value));
    }
    match word.split_once('=') {
        Some((name, value)) => (name, Some(value)),
        None => (word, None),
    }
}

// The value directly after `-n`.
fn after_short(word: &str) -> Option<&str> {
    match word.strip_prefix("-n") {
        Some(value) if !value.is_empty() && !value.starts_with('=') => Some(value),
        _ => None,
    }
}
