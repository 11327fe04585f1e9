// From crates/binfarce_command/src/report.rt, by tools/erase.

//! Messages for refused calls and files, and the program's exit status.

use crate::shim::{HostRuntime, String};
use crate::erased::binfarce_calls::status::{status_of, wrong_status};
use crate::erased::binfarce_io::fault::Fault;
use crate::erased::binfarce_io::message::{Message, line_of, message_of};
use crate::erased::binfarce_jobs::limit::Verdict;
use crate::erased::binfarce_words::wrong::Wrong;
use core::fmt;
use crate::shim::io::Error;

/// Prints why a call is wrong, and returns the program's exit status.
pub fn refuse(rt: &HostRuntime, wrong: &Wrong<'_>) -> u8 {
    say(rt, None, wrong);
    wrong_status(wrong)
}

/// Prints why the work failed, if it did, and returns the program's exit status. `reason` is that of a failed write.
pub fn ended(
    rt: &HostRuntime,
    done: Result<Verdict, Fault>,
    has_limit: bool,
    reason: Option<Error>,
) -> u8 {
    let status = status_of(&done, has_limit, &reason);
    match done {
        Err(fault) if !fault.is_write() => say(rt, None, &fault),
        Err(fault) if status != 0 => {
            let message = message_of(rt.alloc(), fault, reason, None);
            report(rt, "standard output", &message);
        }
        _ => {}
    }
    status
}

/// Prints why a file is refused.
pub fn report(rt: &HostRuntime, name: &str, message: &Message) {
    say(rt, Some(name), message);
}

/// Prints the line that says these words, of the file at this path if there is one.
pub fn say<T: fmt::Display>(rt: &HostRuntime, path: Option<&str>, words: &T) {
    let alloc = rt.alloc();
    let line = match String::formatted(alloc, format_args!("{words}")) {
        Ok(words) => line_of(alloc, path, words.as_str()),
        Err(e) => Err(e),
    };
    let _ = match line {
        Ok(line) => rt.eprintln(format_args!("{line}")),
        Err(_) => rt.eprintln(format_args!("binfarce: out of memory")),
    };
}
