//! calls ROUNDS: demangles the names of standard input, one a line, ROUNDS times, by `SymbolName::demangle`. It measures what a
//! call costs in this crate, or in another crate of the same name.

use binfarce::demangle::SymbolName;
use std::{env, io};

fn main() -> io::Result<()> {
    let rounds = env::args().nth(1).and_then(|n| n.parse().ok()).unwrap_or(1);
    let names = io::read_to_string(io::stdin())?;
    let mut total = 0;
    for _ in 0..rounds {
        for name in names.lines() {
            total += SymbolName::demangle(name).trimmed.len();
        }
    }
    println!("{total}");
    Ok(())
}
