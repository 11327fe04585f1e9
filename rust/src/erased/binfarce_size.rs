// From crates/binfarce_size/src/main.rt, by tools/erase.

//! `binfarce-size FILE [SECTION]`: reports how much of an executable each crate takes.

pub(crate) mod program;

use crate::shim::HostRuntime;
use crate::erased::binfarce_size::program::{Fault, run_file, words};
use crate::erased::binfarce_tools::list::Out;
use crate::erased::binfarce_tools::program::{arguments, exit, finish, open};
use crate::shim::io::{self, Write};
use std::process::ExitCode;

pub fn main(rt: HostRuntime) -> ExitCode {
    exit(&rt, report_file(&rt))
}

fn report_file(rt: &HostRuntime) -> Result<(), Fault> {
    let arguments = arguments(rt)?;
    let (path, section) = words(arguments.as_slice())?;
    let mut file = open(rt, path)?;
    let mut out = Out::new(io::writer(rt));
    let reported = run_file(rt.alloc(), &mut file, section, &mut out);
    let flushed = out.into_inner().flush();
    finish(flushed, reported)
}
