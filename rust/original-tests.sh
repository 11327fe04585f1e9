#!/bin/sh
# original-tests.sh FOLDER: runs the tests of the original crate `binfarce`, whose sources lie in FOLDER, unchanged against this
# crate. The modules that begin with `#[cfg(test)]` are copied, with the path of their file, into a crate of its own in a
# temporary folder, and nothing else.
set -eu
[ "$#" -eq 1 ] && [ -d "$1" ] || { echo "usage: original-tests.sh FOLDER" >&2; exit 2; }
made=$(mktemp -d) n=0
trap 'rm -rf "$made"' EXIT
mkdir "$made/src"
printf '[package]\nname = "original_tests"\nversion = "0.1.0"\nedition = "2021"\n[dependencies]\nbinfarce = { path = "%s" }\n' \
    "$(CDPATH= cd -- "$(dirname "$0")" && pwd)" >"$made/Cargo.toml"
echo 'pub use binfarce::*;' >"$made/src/lib.rs"
for file in $(grep -rl '^#\[cfg(test)\]' "$1"); do
    n=$((n + 1))
    sed -n '/^#\[cfg(test)\]/,$p' "$file" >"$made/src/original_$n.rs"
    echo "#[cfg(test)] mod original_$n;" >>"$made/src/lib.rs"
done
[ "$n" -gt 0 ] || { echo "original-tests.sh: $1 has no tests" >&2; exit 1; }
cd "$made" && CARGO_TARGET_DIR="$made/target" cargo test --offline --quiet
