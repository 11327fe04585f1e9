//! What a program gets from its system.

use super::alloc::Global;
use super::io::Stdin;
use std::fmt;
use std::io::{self, Write};

/// A program's way to what lies outside of it.
#[derive(Debug)]
pub struct HostRuntime {}

impl HostRuntime {
    pub fn new() -> HostRuntime {
        HostRuntime {}
    }

    /// The process's memory.
    pub fn alloc(&self) -> Global {
        Global
    }

    /// Standard input.
    pub fn stdin(&self) -> Stdin {
        Stdin
    }

    /// The same.
    pub fn reader(&self) -> Stdin {
        Stdin
    }

    /// Prints a line to standard output.
    pub fn println(&self, line: fmt::Arguments<'_>) -> io::Result<()> {
        super::io::writer(self).write_all(format!("{line}\n").as_bytes())
    }

    /// Prints a line to standard error.
    pub fn eprintln(&self, line: fmt::Arguments<'_>) -> io::Result<()> {
        io::stderr().write_all(format!("{line}\n").as_bytes())
    }
}
