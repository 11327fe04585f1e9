//! The work of `calls` by `rustc-demangle`, as the toolchain's standard library has it: the text without hashes.

#![feature(rustc_private)]

extern crate rustc_demangle;

use std::fmt::Write;
use std::{env, io};

fn main() -> io::Result<()> {
    let rounds = env::args().nth(1).and_then(|n| n.parse().ok()).unwrap_or(1);
    let names = io::read_to_string(io::stdin())?;
    let mut total = 0;
    for _ in 0..rounds {
        for name in names.lines() {
            let mut text = String::new();
            let _ = write!(text, "{:#}", rustc_demangle::demangle(name));
            total += text.len();
        }
    }
    println!("{total}");
    Ok(())
}
