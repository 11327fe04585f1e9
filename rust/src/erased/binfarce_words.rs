// From crates/binfarce_words/src/lib.rt, by tools/erase.

//! The command line of `binfarce`: words to a call.

pub mod argument;
pub mod call;
pub(crate) mod checks;
pub mod command;
pub mod flag;
pub mod given;
pub mod named;
pub(crate) mod reading;
pub mod takes;
pub mod wrong;
