#!/bin/sh
# Builds `peer`, the program over the Rust crate `binfarce` that the columns "original" of bench/RESULTS.md are measured with,
# as FOLDER/peer.
#
# Usage: ./build.sh FOLDER            cargo gets the crate, as Cargo.toml names it
#        ./build.sh FOLDER SOURCES    without a network: SOURCES is the folder of the crate's sources that has `lib.rs`
#        ./build.sh FOLDER LIBRARY    the same calls to another crate: target/release/libbinfarce.rlib of this repository
set -eu
here=$(cd "$(dirname "$0")" && pwd)
mkdir -p "${1:?a folder for the program}"
out=$(cd "$1" && pwd)
library=${2:-}
if [ -z "$library" ]; then
    CARGO_TARGET_DIR="$out/target" cargo build --release --manifest-path "$here/Cargo.toml"
    cp "$out/target/release/peer" "$out/peer"
    exit
elif [ -d "$library" ]; then
    library=$out/libbinfarce.rlib
    rustc --edition 2018 --crate-name binfarce --crate-type rlib --cap-lints allow -C opt-level=3 "$2/lib.rs" -o "$library"
fi
rustc --edition 2021 --crate-name peer -C opt-level=3 --extern "binfarce=$library" "$here/src/main.rs" -o "$out/peer"
