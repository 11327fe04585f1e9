#!/bin/sh
# What a maintainer of a crate asks for: the layout, documents and clippy without a warning, with and without std, and nothing of Rust's
# std that is newer than the stated version of Rust. `rust/src/erased` allows all that clippy says but this.
set -eu
cd "$(dirname "$0")/.."
said=$(mktemp)
trap 'rm -f "$said" "$said.rmeta"' EXIT; trap 'exit 130' HUP INT TERM

cargo fmt --all --check
# The documents that are left are those with std.
RUSTDOCFLAGS="-D warnings" cargo doc --offline --no-deps --package binfarce --no-default-features
RUSTDOCFLAGS="-D warnings" cargo doc --offline --no-deps
cargo clippy --offline --workspace --all-targets -- -D warnings --force-warn clippy::incompatible_msrv 2>"$said" ||
    { cat "$said"; exit 1; }
cargo clippy --offline --package binfarce --lib --no-default-features -- -D warnings
if grep -A 4 "current MSRV" "$said"; then
    echo "lints.sh: these lines need a newer Rust than rust-version"; exit 1
fi
echo 'pub fn newer(bytes: &[u8]) -> &[u8] { bytes.trim_ascii() }' | CARGO_PKG_RUST_VERSION=1.65 clippy-driver --crate-type lib \
    --emit metadata -o "$said" -W clippy::incompatible_msrv - 2>&1 | grep -q "current MSRV" ||
    { echo "lints.sh: clippy doesn't see what is newer"; exit 1; }
