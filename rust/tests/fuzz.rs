//! The fuzz targets of `rust/fuzz` on small inputs that look random, the same in every run: what they assert holds, and they compile
//! without libFuzzer.
// The targets are the roots of crates there.
#![allow(unused_attributes)]

extern crate self as binfarce_fuzz;

#[macro_export]
macro_rules! fuzz_target {
    ($run:expr) => {
        pub fn run(data: &[u8]) {
            let run: fn(&[u8]) = $run;
            run(data)
        }
    };
}

#[path = "../fuzz/fuzz_targets/at.rs"]
mod at;
#[path = "../fuzz/fuzz_targets/demangle.rs"]
mod demangle;
#[path = "../fuzz/fuzz_targets/elf.rs"]
mod elf;
#[path = "../fuzz/fuzz_targets/figures.rs"]
mod figures;
#[path = "../fuzz/fuzz_targets/filter.rs"]
mod filter;
#[path = "../fuzz/src/inputs.rs"]
mod inputs;
#[path = "../fuzz/fuzz_targets/macho.rs"]
mod macho;
#[path = "../fuzz/fuzz_targets/pe.rs"]
mod pe;

pub use inputs::{Row, elf, is_part, rows};

struct Numbers(u64);

impl Numbers {
    fn below(&mut self, end: usize) -> usize {
        self.0 = self.0.wrapping_mul(6364136223846793005).wrapping_add(1442695040888963407);
        (self.0 >> 33) as usize % end
    }
}

/// Runs a target on a seed, and on seeds in which a few bytes are others or a part is missing.
fn run(target: fn(&[u8]), seeds: &[&[u8]]) {
    let mut numbers = Numbers(5);
    for seed in seeds {
        target(seed);
        for _ in 0..300 {
            let mut data = seed.to_vec();
            for _ in 0..numbers.below(8) {
                let at = numbers.below(data.len());
                data[at] = [0, 1, 255, numbers.below(256) as u8, data[numbers.below(data.len())]][numbers.below(5)];
            }
            if numbers.below(4) == 0 {
                data.drain(numbers.below(data.len())..);
            }
            target(&data);
        }
    }
}

const NAMES: [&[u8]; 4] = [
    b"_ZN3foo3bar17h05af221e174051e9E.llvm.123",
    b"_RNvMs_NtC6_123foo3barINtC1a1bmE3baz",
    b"\x05_ZN3foo3bar17h05af221e174051e9E and _RINvC1a1bmEB2_.cold.",
    b"_RYNtC1a1bDNtC1c1dEL_FUKCEu",
];

/// Rows in whatever order, which share addresses and end alike.
fn row_bytes() -> Vec<u8> {
    let mut numbers = Numbers(7);
    (0..301).map(|_| [numbers.below(256), numbers.below(4)][numbers.below(2)] as u8).collect()
}

#[test]
fn names() {
    run(demangle::run, &NAMES);
    run(filter::run, &NAMES);
}

#[test]
fn files() {
    run(elf::run, &[include_bytes!("../samples/elf32-big.bin"), include_bytes!("../samples/elf64-little.bin")]);
    run(macho::run, &[include_bytes!("../samples/macho.bin")]);
    run(pe::run, &[include_bytes!("../samples/pe.bin"), include_bytes!("../samples/pe-image.bin")]);
}

#[test]
fn rows_of_a_file() {
    run(at::run, &[&row_bytes()]);
    run(figures::run, &[&row_bytes()]);
}

/// Each target has its program.
#[test]
fn targets() {
    let manifest = include_str!("../fuzz/Cargo.toml");
    let targets = std::fs::read_dir(concat!(env!("CARGO_MANIFEST_DIR"), "/fuzz/fuzz_targets")).unwrap();
    let targets = targets.map(|file| file.unwrap().file_name().into_string().unwrap()).collect::<Vec<_>>();
    assert_eq!(targets.len(), 7);
    for target in targets {
        assert!(manifest.contains(&format!("path = \"fuzz_targets/{target}\"")), "{target}");
        assert!(include_str!("fuzz.rs").contains(&format!("fuzz_targets/{target}\"]")), "{target}");
    }
}
