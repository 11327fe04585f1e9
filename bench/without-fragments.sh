#!/bin/sh
# Builds the listing program without fragments, FOLDER/without-fragments: each back reference is printed anew. It shows what
# keeping fragments costs and saves. It is cargo's program, of a copy of the plain crate in which no target is looked for.
#
# Usage: ./without-fragments.sh FOLDER
set -eu
crate=$(cd "$(dirname "$0")/../rust" && pwd)
mkdir -p "${1:?a folder for the program}"
scratch=$(mktemp -d)
trap 'rm -rf "$scratch"' EXIT
trap 'exit 130' HUP INT TERM
cp -r "$crate" "$scratch/rust"
targets=src/erased/binfarce_v0_state/targets.rs
sed -i 's/^        let strides = part.len() \/ STRIDE;$/        let part = \&part[part.len()..];\n&/' "$scratch/rust/$targets"
! cmp -s "$scratch/rust/$targets" "$crate/$targets" || { echo "targets.rs has another form" && exit 1; }
CARGO_PROFILE_RELEASE_CODEGEN_UNITS=1 CARGO_TARGET_DIR="$scratch/target" \
    cargo build --release --offline --quiet --manifest-path "$scratch/rust/Cargo.toml" --bin binfarce-list
cp "$scratch/target/release/binfarce-list" "$1/without-fragments"
