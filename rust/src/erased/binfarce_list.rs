// From crates/binfarce_list/src/main.rt, by tools/erase.

//! `binfarce-list FILE [SECTION]`: lists the function symbols of an executable.

pub(crate) mod program;

use crate::shim::HostRuntime;
use crate::erased::binfarce_list::program::{Fault, run_file, words};
use crate::erased::binfarce_tools::list::Out;
use crate::erased::binfarce_tools::program::{arguments, exit, finish, open};
use crate::shim::io::{self, Write};
use std::process::ExitCode;

pub fn main(rt: HostRuntime) -> ExitCode {
    exit(&rt, list_file(&rt))
}

fn list_file(rt: &HostRuntime) -> Result<(), Fault> {
    let arguments = arguments(rt)?;
    let (path, section) = words(arguments.as_slice())?;
    let mut file = open(rt, path)?;
    let mut out = Out::new(io::writer(rt));
    let listed = run_file(rt.alloc(), &mut file, section, &mut out);
    let flushed = out.into_inner().flush();
    finish(flushed, listed)
}
