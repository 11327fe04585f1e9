//! The examples that are programs of their own: what they print. `cargo test` builds them before, `cargo test --test clients`
//! doesn't.

use std::ffi::OsStr;
use std::path::{Path, PathBuf};
use std::process::Command;
use std::sync::Once;
use std::{env, fs};

const SAMPLES: &str = concat!(env!("CARGO_MANIFEST_DIR"), "/samples");

fn example(name: &str) -> PathBuf {
    static BUILT: Once = Once::new();
    let tests = env::current_exe().unwrap();
    let folder = tests.ancestors().nth(2).unwrap();
    let path = folder.join("examples").join(name).with_extension(env::consts::EXE_EXTENSION);
    if !path.exists() {
        BUILT.call_once(|| build(folder));
        assert!(path.exists(), "{} is missing, which `cargo build --examples` makes", path.display());
    }
    path
}

/// Builds the examples into the folder of a profile, which is `TARGET/PROFILE` or `TARGET/TRIPLE/PROFILE`.
fn build(folder: &Path) {
    let target = Path::new(env!("CARGO_TARGET_TMPDIR")).parent().unwrap();
    let (profile, above) = (folder.file_name().unwrap(), folder.parent().unwrap());
    let profile = if profile == "debug" { OsStr::new("dev") } else { profile };
    let mut cargo = Command::new(env!("CARGO"));
    cargo.args([
        "build",
        "--offline",
        "--examples",
        "--manifest-path",
        concat!(env!("CARGO_MANIFEST_DIR"), "/Cargo.toml"),
    ]);
    cargo.arg("--profile").arg(profile).arg("--target-dir").arg(target);
    if above != target {
        cargo.arg("--target").arg(above.file_name().unwrap());
    }
    assert!(cargo.status().unwrap().success(), "{cargo:?}");
}

/// The status of an example, and what it prints.
fn run(name: &str, words: &[&str]) -> (Option<i32>, Vec<u8>) {
    let ended = Command::new(example(name)).args(words).output().unwrap();
    (ended.status.code(), ended.stdout)
}

fn text(name: &str, words: &[&str]) -> String {
    let (status, text) = run(name, words);
    assert_eq!(status, Some(0), "{name} {words:?}");
    String::from_utf8(text).unwrap()
}

#[test]
#[cfg(target_os = "linux")]
fn a_backtrace_names_its_functions() {
    // The second one runs after its file is deleted. The shell copies it: a file that this process has open for writing may be
    // busy when it is run, since the other tests start programs.
    let copy = env::temp_dir().join(format!("binfarce-backtrace-{}", std::process::id()));
    let script = "cp \"$1\" \"$0\" && exec 3<\"$0\" && rm \"$0\" && exec /proc/self/fd/3";
    let deleted = Command::new("sh").args(["-c", script]).arg(&copy).arg(example("backtrace")).output().unwrap();
    assert!(!copy.exists() && deleted.stderr.is_empty(), "{deleted:?}");
    for text in [text("backtrace", &[]), String::from_utf8(deleted.stdout).unwrap()] {
        names_its_functions(&text);
    }
}

#[cfg(target_os = "linux")]
fn names_its_functions(text: &str) {
    let names = text.lines().filter_map(|line| line.split(' ').nth(1)?.split('+').next()).collect::<Vec<_>>();
    let place = |wanted| names.iter().position(|name| *name == wanted).unwrap_or_else(|| panic!("{wanted}: {text}"));
    let order = ["backtrace::print_backtrace", "backtrace::inner::divide", "backtrace::main", "main"].map(place);
    assert!(order.windows(2).all(|pair| pair[0] < pair[1]), "{text}");
}

/// A sample in whose header a section has this name, with bytes at an offset: `at` is where its header has the offset.
fn recorded(sample: &str, old: &[u8], bytes: &[u8], at: impl Fn(usize, &mut [u8], u32)) -> String {
    let mut file = fs::read(format!("{SAMPLES}/{sample}")).unwrap();
    let place = file.windows(old.len()).position(|part| part == old).unwrap();
    file[place..place + 8].copy_from_slice(b".dep-v0\0");
    let end = file.len() as u32;
    at(place, &mut file, end);
    file.extend(bytes);
    let path = env::temp_dir().join(format!("binfarce-{}-{sample}", std::process::id()));
    fs::write(&path, file).unwrap();
    path.into_os_string().into_string().unwrap()
}

#[test]
fn an_audit_finds_the_list_in_each_format() {
    let list = b"\x78\x9c packages";
    let len = list.len() as u32;
    let put = |file: &mut [u8], at: usize, value: u32| file[at..at + 4].copy_from_slice(&value.to_le_bytes());
    let files = [
        // The header of section 2, `.symtab`: `sh_offset` and `sh_size`.
        recorded("elf64-little.bin", b".symtab\0", list, |_, file, end| {
            put(file, 267 + 2 * 64 + 24, end);
            put(file, 267 + 2 * 64 + 32, len);
        }),
        // `sectname`, with `size` and `offset` after it.
        recorded("macho.bin", b"__text\0\0", list, |name, file, end| {
            put(file, name + 40, len);
            put(file, name + 48, end);
        }),
        // `Name`, with `SizeOfRawData` and `PointerToRawData` after it.
        recorded("pe.bin", b".text\0\0\0", list, |name, file, end| {
            put(file, name + 16, len);
            put(file, name + 20, end);
        }),
    ];
    let all = files.each_ref().map(|file| &**file);
    let lines = files.each_ref().map(|file| format!("{file}: 11 bytes of dependencies\n")).concat();
    assert_eq!(text("audit", &all), lines);
    for file in all {
        assert_eq!(run("audit", &["--extract", file]), (Some(0), list.to_vec()));
        fs::remove_file(file).unwrap();
    }
    let sample = format!("{SAMPLES}/macho.bin");
    assert_eq!(run("audit", &[&sample]), (Some(1), format!("{sample}: no section of this name\n").into_bytes()));
}

#[test]
fn bloat_is_shown_by_crate_and_by_generic_function() {
    assert_eq!(
        text("bloat", &[&format!("{SAMPLES}/elf64-little.bin")]),
        "32 bytes of functions by crate:\n        16  50.0% [unknown]\n        16  50.0% foo\n\
         32 bytes of functions by function:\n        16  50.0% bad\n        16  50.0% foo\n"
    );
    let text = text("bloat", &[&example("bloat").to_string_lossy(), "1000000"]);
    let (crates, functions) = text.split_once(" bytes of functions by function:\n").unwrap();
    let total = crates.split(' ').next().unwrap();
    assert_eq!(crates.lines().last().unwrap(), total);
    for rows in [crates.rsplit_once('\n').unwrap().0.split_once('\n').unwrap().1, functions] {
        let sizes = rows.lines().map(|row| row[..10].trim().parse::<u64>().unwrap()).collect::<Vec<_>>();
        assert_eq!(sizes.iter().sum::<u64>().to_string(), total);
        assert!(sizes.windows(2).all(|pair| pair[0] >= pair[1]));
    }
    assert!(functions.lines().any(|row| row.ends_with("% bloat::main")));
    let mut generic = functions.lines().filter(|row| row.contains("% core::ptr::drop_in_place")).peekable();
    assert!(
        generic.peek().is_some() && generic.all(|row| row.ends_with("drop_in_place<..>") || row.ends_with("::<..>"))
    );
}
