//! A failed allocation ends no process: a program of its own, whose allocator refuses each request in turn, is built and run. It needs
//! Cargo.

use std::process::Command;

#[test]
fn each_refused_allocation_is_an_error() {
    let folder = concat!(env!("CARGO_MANIFEST_DIR"), "/tests/refusing");
    let target = concat!(env!("CARGO_TARGET_TMPDIR"), "/refusing");
    let mut cargo = Command::new(env!("CARGO"));
    cargo.args(["run", "--offline", "--quiet", "--target-dir", target]).current_dir(folder);
    let ended = cargo.output().unwrap();
    let (text, errors) = (String::from_utf8_lossy(&ended.stdout), String::from_utf8_lossy(&ended.stderr));
    assert!(ended.status.success(), "{}\n{errors}", text.lines().last().unwrap_or_default());
    let last = text.lines().last().unwrap();
    let all = last.strip_suffix(" allocations were refused").unwrap().parse::<u32>().unwrap();
    assert!(all >= 500, "{last}");
}
