#!/bin/sh
# Makes the larger files that RESULTS.md measures, in FOLDER; what a missing compiler would have made is left out with a line.
#
#   elf     rust-v0, rust-legacy: a Rust program of 76,800 instances (make-files.sh's), by rustc
#   cpp     cpp.so: LLVM's own libraries as one, by g++; Debian's llvm-14-dev has them
#   macho   core-v0.dylib, core-legacy.dylib: Rust's `core` for macOS, by rustc and its sources, and ld64.lld
#   pe      rust-v0.exe, rust-legacy.exe, cpp.exe: for Windows, by rustc with the target's `std`, and mingw-w64
#
# What `macho` and `pe` need, by rustup: `rustup component add rust-src`, `rustup target add x86_64-pc-windows-gnu`. By Debian's
# packages rustc, rust-src and libstd-rust-dev-windows (with lld and g++-mingw-w64-x86-64), or those unpacked in a folder:
#
#   RUSTC    (optional) the compiler, rustc
#   SOURCES  (optional) the folder `library` of that compiler's sources
#
# Usage: ./make-big.sh FOLDER [elf|cpp|macho|pe ..]
set -u
trap 'exit 130' HUP INT TERM
here=$(cd "$(dirname "$0")" && pwd)
out=${1:?a folder for the files}
shift
mkdir -p "$out"
rustc=${RUSTC:-rustc}
export RUSTC_BOOTSTRAP=1

make() {
    file=$1
    shift
    "$@" -o "$out/$file" 2>"$out/log" || echo "left out $file: $(grep -v '^ *$' "$out/log" | tail -n 1 | cut -c 1-120)"
}

by_rustc() {
    make "$1" "$rustc" --edition 2021 -A warnings -Zunstable-options -C symbol-mangling-version="$2" -C opt-level=0 "$3" \
        "${4:--Ccodegen-units=16}" "${5:--Cdebuginfo=0}"
}

elf() {
    "$here/make-files.sh" --grid 160 >"$out/grid.rs"
    for mangling in v0 legacy; do
        by_rustc "rust-$mangling" $mangling "$out/grid.rs"
    done
}

cpp() {
    archives=$(ls /usr/lib/llvm-*/lib/libLLVM[A-Z]*.a 2>/dev/null)
    # Its words are file names without blanks.
    make cpp.so g++ -shared -Wl,--unresolved-symbols=ignore-all -Wl,--allow-multiple-definition -Wl,--whole-archive \
        ${archives:-no-such.a} -Wl,--no-whole-archive
}

macho() {
    sources=${SOURCES:-$("$rustc" --print sysroot)/lib/rustlib/src/rust/library}
    linker=$(command -v ld64.lld || ls /usr/lib/llvm-*/bin/ld64.lld 2>/dev/null | tail -n 1)
    for mangling in v0 legacy; do
        make core-$mangling.o "$rustc" --edition 2021 --crate-name core --crate-type rlib --cap-lints allow -Zunstable-options \
            --target x86_64-apple-darwin -C symbol-mangling-version=$mangling -Z function-sections=no -C opt-level=0 \
            -C codegen-units=1 -C embed-bitcode=no -C panic=abort --emit=obj "$sources/core/src/lib.rs"
        make core-$mangling.dylib "${linker:-ld64.lld}" -arch x86_64 -platform_version macos 11.0 11.0 -dylib \
            -undefined dynamic_lookup "$out/core-$mangling.o"
    done
}

pe() {
    "$here/make-files.sh" --grid 24 >"$out/small-grid.rs"
    for mangling in v0 legacy; do
        by_rustc rust-$mangling.exe $mangling "$out/small-grid.rs" --target=x86_64-pc-windows-gnu \
            -Clinker=x86_64-w64-mingw32-gcc
    done
    cat >"$out/small.cpp" <<'CPP'
#include <algorithm>
#include <iostream>
#include <map>
#include <string>
#include <vector>
int main(int count, char **words) {
    std::map<std::string, std::vector<int>> seen;
    for (int i = 0; i < count; i++) seen[words[i]].push_back(i);
    for (auto &one : seen) { std::sort(one.second.begin(), one.second.end()); std::cout << one.first << one.second.size() << "\n"; }
}
CPP
    make cpp.exe x86_64-w64-mingw32-g++ -std=c++17 -O1 -static "$out/small.cpp"
}

for part in "${@:-all}"; do
    case $part in
        elf | cpp | macho | pe) $part ;;
        all) elf && cpp && macho && pe ;;
        *) echo "there is no part $part" >&2 && exit 2 ;;
    esac
done
rm -f "$out/log"
