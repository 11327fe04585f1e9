#![forbid(unsafe_code)]

use std::process::ExitCode;

fn main() -> ExitCode {
    binfarce::programs::binfarce_list()
}
