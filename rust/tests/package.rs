//! What Cargo packages, and what its files say of themselves.

use std::path::Path;
use std::process::Command;
use std::{env, fs};

const FOLDER: &str = env!("CARGO_MANIFEST_DIR");

fn read(path: &str) -> String {
    fs::read_to_string(Path::new(FOLDER).join(path)).unwrap()
}

/// A path in README.md that isn't packaged is said to be the repository's.
#[test]
fn the_readme_leads_into_the_package() {
    let listed = Command::new(env!("CARGO"))
        .args(["package", "--list", "--offline", "--allow-dirty"])
        .current_dir(FOLDER)
        .output()
        .unwrap();
    let listed = String::from_utf8(listed.stdout).unwrap();
    assert!(listed.lines().any(|file| file == "README.md"), "{listed}");
    let is_packaged = |path: &str| {
        let path = path.trim_start_matches("./").trim_end_matches('/');
        listed.lines().any(|file| file.strip_prefix(path).is_some_and(|rest| rest.is_empty() || rest.starts_with('/')))
    };
    let is_outside = |word: &str| {
        let here = Path::new(FOLDER);
        let is_path = word.contains('/') || word.contains('.') && word != "." || word == "rust";
        is_path && !is_packaged(word) && (here.join(word).exists() || here.join("..").join(word).exists())
    };
    assert!(is_packaged("src/erased") && is_outside("docs/PROOFS.md") && is_outside("original-tests.sh"));
    for line in read("README.md").lines().filter(|line| !line.starts_with("```")) {
        let words = line.split('`').skip(1).step_by(2).flat_map(str::split_whitespace);
        let outside = words.filter(|word| is_outside(word)).collect::<Vec<_>>();
        assert!(outside.is_empty() || line.contains("repository"), "{outside:?} in: {line}");
    }
    let links = read("README.md").matches("](").count();
    assert_eq!(links, 0, "a link leads out of the package");
}

/// Of the public functions those that people call first have an example, which `cargo test --doc` runs.
#[test]
fn functions_have_examples() {
    let (mut all, mut shown) = (0, 0);
    for file in ["any", "demangle", "elf", "error", "figures", "filter", "macho", "pe", "streams", "tables"] {
        let (source, mut has_example) = (read(&format!("src/{file}.rs")), false);
        for line in source.lines().map(str::trim) {
            if line.starts_with("pub fn ") {
                all += 1;
                shown += usize::from(has_example);
            }
            has_example =
                line.starts_with("/// ```") || has_example && (line.starts_with("///") || line.starts_with("#["));
        }
    }
    assert!(shown >= 60, "{shown} of {all}");
}

/// Each public function that needs the feature `std` says so, and is in README.md's row of that feature.
#[test]
fn what_needs_std_says_so() {
    let readme = read("README.md");
    let row = readme.lines().find(|line| line.starts_with("| `std`")).unwrap();
    let mut found = Vec::new();
    for file in
        ["any", "demangle", "elf", "error", "figures", "filter", "macho", "pe", "streams", "symbolizer", "tables"]
    {
        let source = read(&format!("src/{file}.rs"));
        for (start, _) in source.match_indices("pub fn ") {
            let name = source[start + 7..].split(['<', '(']).next().unwrap();
            let before = source[..start].rsplit("\n\n").next().unwrap();
            let needs_std = file == "streams" || before.contains("#[cfg(feature = \"std\")]");
            let said = before.replace("\n    ///", "").replace("\n///", "");
            assert_eq!(said.contains("With the feature `std`."), needs_std, "{name}");
            if needs_std {
                let is_in_row = row.contains(&format!("{name}`"));
                assert!(is_in_row || name.ends_with("_to") && row.contains("the `.._to` of `Tables`"), "{name}");
                found.push(name.to_string());
            }
        }
    }
    assert!(found.len() >= 12, "{found:?}");
}

/// Cargo ignores `[lints]` before 1.74.
#[test]
fn unsafe_code_is_forbidden_in_the_sources() {
    for path in ["src/lib.rs", "src/bin/binfarce.rs", "src/bin/binfarce-list.rs", "src/bin/binfarce-size.rs"] {
        assert!(read(path).lines().any(|line| line == "#![forbid(unsafe_code)]"), "{path}");
    }
}

/// From Rust 1.81 on a panic ends the program at an `extern "C"` function; before, it would unwind into C.
#[test]
fn a_panic_does_not_unwind_into_c() {
    let manifest = read("c/Cargo.toml");
    let version = manifest.lines().find_map(|line| line.strip_prefix("rust-version = \"1.")).unwrap();
    assert!(version.trim_end_matches('"').parse::<u32>().unwrap() >= 81);
    let exported = read("c/src/lib.rs");
    let functions = exported.lines().filter(|line| line.contains("pub ") && line.contains("fn binfarce_"));
    assert!(functions.clone().count() > 10 && functions.clone().all(|line| line.contains("extern \"C\" fn")));
}
