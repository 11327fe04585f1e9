#!/bin/sh
# Makes crates/binfarce_c/out/libbinfarce.a by the Rattle kit: the library for C, proved down to its exports, and the kit's functions
# that call malloc, realloc and free. Prints the archive's path. Without the kit, `cargo build --release` makes such an archive.
set -eu
cd "$(dirname "$0")/../crates/binfarce_c"
rt lib >&2
printf 'create out/libbinfarce.a\naddlib out/libbinfarce_c.a\naddlib %s/c/liblibc_c.a\nsave\n' "$(dirname "$(rt doc)")" | ar -M
echo crates/binfarce_c/out/libbinfarce.a
