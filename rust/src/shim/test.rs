//! What the erased tests need: their error, the runtime's streams in memory, and a memory that refuses one request.

use super::HostRuntime;
use super::alloc::AllocError;
use std::cell::{Cell, RefCell};
use std::io::{Read, Result, Write};
use std::process::ExitCode;

/// A program among the tests.
pub type Main = fn(HostRuntime) -> ExitCode;

thread_local! {
    // How many allocations are made until one is refused; 0 if none will be.
    static LEFT: Cell<usize> = const { Cell::new(0) };
    static INPUT: RefCell<Vec<u8>> = const { RefCell::new(Vec::new()) };
    static OUTPUT: RefCell<Vec<u8>> = const { RefCell::new(Vec::new()) };
}

/// Refuses the allocation whose turn it is.
pub fn count_allocation() -> std::result::Result<(), AllocError> {
    let left = LEFT.get();
    LEFT.set(left.saturating_sub(1));
    if left == 1 { Err(AllocError) } else { Ok(()) }
}

/// What `run` gives where the allocation of this number, from 1 on, is refused on this thread; 0 refuses none. Beside it whether
/// one was refused.
pub fn refusing<T>(number: usize, run: impl FnOnce() -> T) -> (T, bool) {
    LEFT.set(number);
    let given = run();
    (given, LEFT.replace(0) == 0 && number > 0)
}

/// What a program prints that has this standard input, beside what it ends with.
pub fn printed<T>(input: &str, main: impl FnOnce(HostRuntime) -> T) -> (T, String) {
    INPUT.set(input.as_bytes().to_vec());
    OUTPUT.take();
    let ended = main(HostRuntime::new());
    (ended, String::from_utf8(OUTPUT.take()).expect("UTF-8"))
}

/// Standard output in a test.
pub struct Output;

impl Write for Output {
    fn write(&mut self, bytes: &[u8]) -> Result<usize> {
        OUTPUT.with_borrow_mut(|output| output.write(bytes))
    }

    fn flush(&mut self) -> Result<()> {
        Ok(())
    }
}

/// Standard input in a test.
pub struct Input;

impl Read for Input {
    fn read(&mut self, buf: &mut [u8]) -> Result<usize> {
        INPUT.with_borrow_mut(|input| {
            let taken = buf.len().min(input.len());
            buf[..taken].copy_from_slice(&input[..taken]);
            input.drain(..taken);
            Ok(taken)
        })
    }
}
