//! The stored runs of the programs: with the arguments and the standard input of a crate's folder each prints what is stored
//! there, and fails if nothing can be written.

use std::path::Path;
use std::process::{Command, Output, Stdio};
use std::{env, fs};

fn run(program: &str, path: &str, output: Stdio) -> Output {
    let folder = Path::new(env!("CARGO_MANIFEST_DIR")).join("../crates").join(program);
    let words = fs::read_to_string(folder.join("args")).unwrap_or_default();
    let input = fs::File::open(folder.join("stdin")).map_or_else(|_| Stdio::null(), Stdio::from);
    let data = [folder.join("data"), folder].into_iter().find(|path| path.is_dir()).unwrap();
    let mut command = Command::new(path);
    command.args(words.lines()).current_dir(data).stdin(input).stdout(output).stderr(Stdio::piped());
    command.spawn().unwrap().wait_with_output().unwrap()
}

#[test]
fn stored() {
    for (program, path, line) in [
        ("binfarce_list", env!("CARGO_BIN_EXE_binfarce-list"), "binfarce-list: write failed\n"),
        ("binfarce_size", env!("CARGO_BIN_EXE_binfarce-size"), "binfarce-size: write failed\n"),
        ("binfarce_command", env!("CARGO_BIN_EXE_binfarce"), "binfarce: standard output: No space left on device\n"),
    ] {
        let ended = run(program, path, Stdio::piped());
        let want = format!("{}/../crates/{program}/stdout", env!("CARGO_MANIFEST_DIR"));
        assert_eq!((ended.status.code(), &*ended.stderr), (Some(0), &b""[..]), "{program}");
        assert_eq!(ended.stdout, fs::read(want).unwrap(), "{program}");
        if let Ok(full) = fs::File::create("/dev/full") {
            let ended = run(program, path, full.into());
            assert_eq!(ended.status.code(), Some(1), "{program}");
            assert_eq!(ended.stderr, line.as_bytes(), "{program}");
        }
    }
}
