// From crates/binfarce_words/src/given.rt, by tools/erase.

//! The options and operands that are given.

use crate::shim::Vec;
use crate::erased::binfarce_words::argument::Argument;
use crate::erased::binfarce_words::flag::Flag;
use crate::erased::binfarce_words::flag::Flag::{By, FailAbove, Sort};
use crate::erased::binfarce_words::named::Named;
use crate::erased::binfarce_words::takes::{
    Key, Limit, Order, Takes, count_in, key_named, limit_in, order_named,
};
use crate::erased::binfarce_words::wrong::Wrong;
use crate::erased::binfarce_rows::address::parse_address;
use crate::shim::alloc::{AllocError, Global};

/// The options and operands of a command.
#[derive(Debug)]
pub struct Arguments<'a> {
    /// The options in their order, each with its value.
    pub options: Vec<(Flag, &'a str)>,
    /// The arguments that aren't options, nor values of options.
    pub operands: Vec<Argument<'a>>,
}

impl<'a> Arguments<'a> {
    /// Whether the option is given.
    pub fn has(&self, flag: Flag) -> bool {
        self.value(flag).is_some()
    }

    /// The option's value, as it was given last.
    pub fn value(&self, flag: Flag) -> Option<&'a str> {
        let name = flag.name();
        let options = self.options.as_slice();
        match options.iter().rev().copied().find(|it| it.0.name() == name) {
            Some((_, value)) => Some(value),
            None => None,
        }
    }

    /// The option's value at a place among those that are given, in their order.
    pub fn value_at(&self, flag: Flag, place: usize) -> Option<&'a str> {
        match nth_given(self.options.as_slice(), flag.name(), place) {
            Some((_, value)) => Some(value),
            None => None,
        }
    }

    /// The address that is the option's value.
    pub fn address(&self, flag: Flag) -> Option<u64> {
        parse_address(self.value(flag)?.as_bytes())
    }

    /// The number that is the option's value.
    pub fn count(&self, flag: Flag) -> Option<usize> {
        count_in(self.value(flag)?)
    }

    /// The limit that is given.
    pub fn limit(&self) -> Option<Limit> {
        limit_in(self.value(FailAbove)?)
    }

    /// Whether the bytes of sections are summed.
    pub fn is_by_section(&self) -> bool {
        matches!(self.value(By), Some("section"))
    }

    /// The order that is asked for.
    pub fn order(&self) -> Option<Order> {
        order_named(self.value(Sort)?)
    }

    /// The key that sizes are summed by.
    pub fn key(&self) -> Option<Key> {
        key_named(self.value(By)?)
    }

    /// The text of the operand at this place, from 0 on, if it has one.
    pub fn operand(&self, at: usize) -> Option<&'a str> {
        self.operands.get(at)?.text()
    }

    /// The texts of the operands, in their order.
    ///
    /// # Errors
    ///
    /// `AllocError` if an allocation fails.
    pub fn operand_texts(&self, alloc: Global) -> Result<Vec<&'a str>, AllocError> {
        let mut texts = Vec::new(alloc);
        for operand in &self.operands {
            if let Some(text) = operand.text() {
                texts.push(text)?;
            }
        }
        Ok(texts)
    }

    // Takes an option.
    pub(crate) fn set(&mut self, flag: Flag, value: &'a str) -> Result<(), Wrong<'a>> {
        if !flag.form().2.is_met_by(value) {
            return Err(bad_value(flag, value));
        }
        self.options
            .push((flag, value))
            .map_err(|_| Wrong::OutOfMemory)
    }

    // Takes an operand.
    pub(crate) fn push(&mut self, argument: Argument<'a>) -> Result<(), Wrong<'a>> {
        self.operands.push(argument).map_err(|_| Wrong::OutOfMemory)
    }
}

// Why an option doesn't take this value.
fn bad_value<'a>(flag: Flag, value: &'a str) -> Wrong<'a> {
    match flag.form().2 {
        Takes::Page if parse_address(value.as_bytes()).is_none() => Wrong::NoAddress(value),
        _ => Wrong::BadValue(flag, value),
    }
}

// The option at a place among those of this name.
fn nth_given<'a>(options: &[(Flag, &'a str)], name: &str, place: usize) -> Option<(Flag, &'a str)> {
    let mut left = place;
    for option in options {
        if option.0.name() == name {
            if left == 0 {
                return Some(*option);
            }
            left -= 1;
        }
    }
    None
}
