//! The crate without std: a program of its own, `no_std`, is built and run. It needs Cargo, and C's library.
#![cfg(target_os = "linux")]

use std::process::Command;

const PRINTED: &str = r#"a[0]::b
foo::bar
in a::b.
64-bit little-endian ELF of 587 bytes
None 0
Some(".text") 32
Some(".symtab") 120
Some(".strtab") 18
Some(".shstrtab") 33
0000000000001000         16 foo
text 32

        16 foo
sum 16
text 32

1000 _ZN3foo3barE
1010 bad
1010 bad
Some("bad")
[("[unknown]", 16), ("foo", 16)]
true
a script
panicked in a::b
panicked in _RNvC1a1b, V0, true
"#;

#[test]
fn names_and_a_file_in_memory() {
    let folder = concat!(env!("CARGO_MANIFEST_DIR"), "/tests/no_std");
    let target = concat!(env!("CARGO_TARGET_TMPDIR"), "/no_std");
    let mut cargo = Command::new(env!("CARGO"));
    cargo.args(["build", "--offline", "--release", "--target-dir", target]).current_dir(folder);
    assert!(cargo.status().unwrap().success(), "{cargo:?}");
    let ended = Command::new(format!("{target}/release/no-std")).output().unwrap();
    assert_eq!((String::from_utf8(ended.stdout).unwrap().as_str(), ended.status.code()), (PRINTED, Some(7)));
}
