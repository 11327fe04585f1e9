//! Lists the function symbols of FILE, or without one those of a small sample:
//! `cargo run --release --example list -- [FILE]`

use std::error::Error;
use std::{env, fs};

const SMALL: &str = concat!(env!("CARGO_MANIFEST_DIR"), "/samples/elf64-little.bin");

fn main() -> Result<(), Box<dyn Error>> {
    let file = fs::read(env::args_os().nth(1).unwrap_or(SMALL.into()))?;
    print!("{}", binfarce::list(&file, ".text")?);
    Ok(())
}
