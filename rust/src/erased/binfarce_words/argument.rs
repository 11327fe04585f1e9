// From crates/binfarce_words/src/argument.rt, by tools/erase.

//! Arguments of the program.

use crate::shim::{String, Vec};
use crate::erased::binfarce_words::wrong::Wrong;
use crate::shim::alloc::{AllocError, Global};
use core::fmt;

/// An argument of the program.
#[derive(Debug, Clone, Copy, PartialEq)]
pub enum Argument<'a> {
    /// A text.
    Text(&'a str),
    /// The argument at this position, from 1 on, isn't UTF-8.
    NotUtf8(usize),
}

impl<'a> Argument<'a> {
    /// Its text, if it has one.
    pub fn text(self) -> Option<&'a str> {
        match self {
            Argument::Text(text) => Some(text),
            Argument::NotUtf8(_) => None,
        }
    }

    // Its text, which it has to have.
    pub(crate) fn required(self) -> Result<&'a str, Wrong<'a>> {
        match self {
            Argument::Text(text) => Ok(text),
            Argument::NotUtf8(at) => Err(Wrong::NotUtf8(at)),
        }
    }
}

impl<'a> fmt::Display for Argument<'a> {
    fn fmt(&self, f: &mut fmt::Formatter<'_>) -> fmt::Result {
        match self {
            Argument::Text(text) => write!(f, "{text}"),
            Argument::NotUtf8(at) => write!(f, "argument {at}"),
        }
    }
}

/// The arguments with these texts, in their order. One without a text isn't UTF-8.
///
/// # Errors
///
/// `AllocError` if an allocation fails.
pub fn arguments_of<'a>(
    alloc: Global,
    texts: &'a [Option<String>],
) -> Result<Vec<Argument<'a>>, AllocError> {
    let mut arguments = Vec::new(alloc);
    for text in texts {
        let at = arguments.len() + 1;
        let argument = match text {
            Some(text) => Argument::Text(text.as_str()),
            None => Argument::NotUtf8(at),
        };
        arguments.push(argument)?;
    }
    Ok(arguments)
}
