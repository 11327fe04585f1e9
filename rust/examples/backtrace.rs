//! Panics, and prints the functions of its own backtrace, those of shared objects too. It runs on Linux, position-independent or not,
//! and also if its file was deleted or replaced meanwhile.

use binfarce::{Process, demangle::demangle};
use std::backtrace::Backtrace;
use std::{env, io, panic};

mod inner {
    #[inline(never)]
    pub fn divide(a: u32, b: u32) -> u32 {
        if b == 0 {
            panic!("division by zero");
        }
        a / b
    }
}

/// The return addresses in a backtrace's text, a line `   3:     0x55d0c7b5d4a1 - NAME` each, which inlined functions repeat.
fn addresses(trace: &str) -> Vec<u64> {
    let address = |line: &str| {
        let (_, rest) = line.split_once(": ")?;
        u64::from_str_radix(rest.trim_start().strip_prefix("0x")?.split(' ').next()?, 16).ok()
    };
    let mut addresses = trace.lines().filter_map(address).collect::<Vec<_>>();
    addresses.dedup();
    addresses
}

fn print_backtrace() -> io::Result<()> {
    let process = Process::own()?;
    for (path, e) in process.refused() {
        eprintln!("{path}: {e}");
    }
    for address in addresses(&format!("{:#}", Backtrace::force_capture())) {
        match process.find_return(address) {
            Some(it) => println!("{address:x} {:#}+0x{:x} in {}", demangle(it.function.name), it.offset, it.path),
            None => println!("{address:x} ??"),
        }
    }
    Ok(())
}

fn main() {
    panic::set_hook(Box::new(|_| print_backtrace().unwrap_or_else(|e| eprintln!("{e}"))));
    let _ = panic::catch_unwind(|| inner::divide(1, env::args().len() as u32 - 1));
}
