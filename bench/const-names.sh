#!/bin/sh
# Prints real v0 names with constants and their texts: a name, its complete text, its trimmed text and its crate, with
# a bar between them, one name a line. The names are those of the functions of const-names.rs, as rustc mangles them;
# the texts are those of c++filt (GNU binutils), an independent reader, but for two things:
# - of a number of more than 16 digits it drops the first digit and shows the `_` after the last; the digits are those
#   that llvm-cxxfilt shows;
# - it shows seven characters in another way than by the rule of docs/NAMES.md: `'\t'`, `'\n'`, `'\r'`, `'''`, `'\'`,
#   and escapes of a space and of `~`.
#
# Usage: ./const-names.sh FOLDER
set -eu
trap 'exit 130' HUP INT TERM
out=${1:?a folder for the program}
here=$(dirname "$0")
mkdir -p "$out"
rustc --edition 2021 --crate-name consts -C symbol-mangling-version=v0 -C opt-level=0 \
    -o "$out/consts" "$here/const-names.rs"
nm --defined-only "$out/consts" | sed -n 's/^[0-9a-f]* [tT] \(_R.*6consts.*K.*\)$/\1/p' | LC_ALL=C sort -u >"$out/names"
llvm-cxxfilt <"$out/names" >"$out/llvm"
c++filt --format=rust <"$out/names" | paste -d '|' "$out/llvm" - | sed \
    -e 's/^[^|]*\(0x[0-9a-f]*\)[^|]*|\(.*\)0x[0-9a-f]*_/|\2\1/' \
    -e 's/^[^|]*|//' \
    -e "s/'\\\\t': char/'\\\\u{9}': char/g" \
    -e "s/'\\\\n': char/'\\\\u{a}': char/g" \
    -e "s/'\\\\r': char/'\\\\u{d}': char/g" \
    -e "s/''': char/'\\\\u{27}': char/g" \
    -e "s/'\\\\': char/'\\\\u{5c}': char/g" \
    -e "s/'\\\\u{20}': char/' ': char/g" \
    -e "s/'\\\\u{7e}': char/'~': char/g" >"$out/complete"
sed 's/\[[0-9a-f]\{9,16\}\]//g' "$out/complete" >"$out/trimmed"
paste -d '|' "$out/names" "$out/complete" "$out/trimmed" | sed -n 's/^.*|<\{0,2\}consts::.*$/&|consts/p'
