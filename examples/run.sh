#!/bin/sh
# examples/run.sh [ARCHIVE]: builds and runs the clients of the library, in C, C++, Python and Rust, and compares what they print with
# what the program prints. Those in C and C++ also run under valgrind and with the address and undefined behaviour sanitizers.
# ARCHIVE is the library, such as bindings/archive.sh makes; without it, it is the one of `cargo build --release`. Last come the
# scripts of examples/fleet.
set -eu
cd "$(dirname "$0")/.."
work=$(mktemp -d)
trap 'rm -rf "$work"' EXIT
trap 'exit 130' HUP INT TERM

fail() { echo "examples: $*"; exit 1; }
# compare "CLIENT .." FILE ..: for each file their output and status must be those of binfarce-list.
compare() {
    clients=$1
    shift
    for client in "$built/binfarce-list" $clients; do
        for file; do
            echo "$file"
            "$client" "$file" 2>&1 || echo "status $?"
        done | sed 's/^binfarce-list: //' >"$work/${client##*/}.txt"
        cmp "$work/binfarce-list.txt" "$work/${client##*/}.txt" || fail "$client and binfarce-list differ"
    done
}

cargo build --offline --quiet --release --workspace --lib --bins --examples
built="${CARGO_TARGET_DIR:-target}/release"
archive=${1:-$built/libbinfarce.a}
flags="-O2 -g -Wall -Wextra -pedantic -Werror -Iinclude"
sample=crates/binfarce_list/data/e-elf64-little.bin

rust/c/generate --check || fail "the wrappers aren't those of the header"
for std in c89 c99 c11 c2x; do
    gcc -std=$std $flags -x c -c include/binfarce.h -o "$work/header.o" || fail "the header is no $std"
done
for std in c++98 c++11 c++20; do
    g++ -std=$std $flags -x c++ -c include/binfarce.h -o "$work/header.o" || fail "the header is no $std"
done
for checks in "" "-fsanitize=address,undefined -fno-sanitize-recover"; do
    for name in symbols symbolize listing hostile sections kinds pointers; do
        gcc -std=c11 $flags $checks "examples/$name.c" "$archive" -o "$work/$name${checks:+-checked}"
    done
    g++ -std=c++17 $flags $checks examples/names.cpp "$archive" -o "$work/names"
    "$work/names" <examples/names.txt | cmp - examples/names.wanted || fail "names of C++, built with '$checks'"
done
gcc -std=c11 $flags examples/refused.c "$archive" -Wl,--wrap=malloc,--wrap=realloc -o "$work/refused"

grep -oE '^[a-z].* binfarce_[a-z0-9_]+\(' include/binfarce.h | sed 's/.* //; s/($//' | sort >"$work/wanted"
nm -D --defined-only "$built/libbinfarce.so" | awk '{ print $3 }' | sort | cmp "$work/wanted" - ||
    fail "the shared library exports other names than the header declares"

# `listing` asks the library for the whole listing, `symbols` for the function symbols, which names a file that isn't read.
compare "$work/symbols $work/listing $work/symbols-checked $work/listing-checked $built/examples/symbols" "$sample" "$work/symbols"
compare "$work/listing $built/examples/symbols" README.md
examples/hostile_files.py "$work/hostile-files" 2000
compare "$work/listing $built/examples/symbols" "$work/hostile-files"/*
mkdir "$work/foreign"
for file in "$work/hostile-files"/*; do
    "$work/symbols" "$file" >/dev/null 2>&1 || [ "$?" -ne 3 ] || mv "$file" "$work/foreign"
done
compare "$work/symbols" "$work/hostile-files"/*
compare "$work/symbols-checked" "$work/hostile-files/names"
printf '!<arch>\n' >"$work/foreign/archive"
printf '\312\376\272\276\0\0\0\002' >"$work/foreign/universal"
printf '\316\372\355\376\007\0\0\0' >"$work/foreign/macho32"
printf '\037\213\010\0' >"$work/foreign/gzip"
cp README.md "$work/foreign/text"
for file in "$work/foreign"/*; do
    # The command says what it is in the same words, and then what helps.
    words=$("$built/binfarce" list "$file" 2>&1 | sed -n 's/^binfarce: [^:]*: \([^;]*\).*/\1/p')
    for client in symbols "symbolize 0" sections-checked; do
        given=$("$work/${client% *}" "$file" ${client#"${client% *}"} 2>&1) && fail "$client takes $file" || [ "$?" -eq 3 ] || fail "$client: $given"
        [ "$given" = "$words" ] || fail "$client names $file '$given', and the command '$words'"
    done
done

kinds=$("$work/kinds-checked" <examples/names.txt | cut -d' ' -f1 | tr -d '\n')
[ "$kinds" = 2221100 ] || fail "a name's kind differs from the one in names.txt"

# The number, name, address, offset and size of each section but the first.
for file in "$sample" "$work/symbols" "$work/header.o"; do
    readelf -SW "$file" | sed -n 's/^ *\[ *\([0-9]*\)\] */\1 /p' |
        awk '$1 > 0 { for (i = 4; i < 7; i++) sub(/^0*/, "", $i); print $1, $2, $4 ? $4 : 0, $5 ? $5 : 0, $6 ? $6 : 0 }' >"$work/wanted"
    "$work/sections-checked" "$file" | awk '$1 > 0 { print $1, $2, $4, $5, $6 }' >"$work/given"
    [ -s "$work/wanted" ] && cmp "$work/wanted" "$work/given" || fail "the sections of $file aren't those of readelf"
    "$built/examples/sections" "$file" | sed 1d >"$work/given"
    cut -d' ' -f1,2,4,5 "$work/wanted" | cmp - "$work/given" || fail "the crate's sections of $file aren't those of readelf"
done
for file in $(ls -d "$work/hostile-files"/* | head -n 1000); do
    "$work/sections-checked" "$file" >"$work/given" 2>&1 || [ "$?" -eq 1 ] || fail "sections ends otherwise for $file"
    ! grep -q "isn.t found by its" "$work/given" || fail "$(cat "$work/given") in $file"
done

for file in "$sample" "$work/symbols"; do
    "$work/pointers-checked" "$file" || fail "a pointer goes elsewhere than to the name in $file"
done
# The first and the last byte of each function, the bytes beside it, and an address that no function has; of a stripped file also.
strip -o "$work/stripped" "$built/libbinfarce.so"
for file in "$work/symbols" "$built/libbinfarce.so" "$work/stripped"; do
    options=
    [ "$file" != "$work/stripped" ] || options=--dynamic
    addresses="1 $("$built/binfarce" list --all $options "$file" |
        awk 'NR % 7 == 1 && $2 > 0 { print $1, $2 }' | head -n 1500 | while read -r start size; do
            printf '%x %x %x %x ' $((0x$start)) $((0x$start + size - 1)) $((0x$start - 1)) $((0x$start + size))
        done)"
    "$built/binfarce" at $options "$file" $addresses >"$work/wanted"
    "$work/symbolize-checked" "$file" $addresses | cmp - "$work/wanted" || fail "symbolize and \`binfarce at\` differ for $file"
    examples/symbolize.py "$built/libbinfarce.so" "$file" $addresses | cmp - "$work/wanted" || fail "symbolize.py and \`binfarce at\` differ for $file"
done
"$work/hostile" 100000 10000 "$sample" || fail "a call depends on its buffer"
"$work/hostile-checked" 2000 500 "$sample" || fail "a call depends on its buffer, under the sanitizers"
"$work/refused" "$sample" || fail "a failed allocation isn't reported"
"$built/examples/backtrace" >"$work/given"
grep -q ' backtrace::inner::divide+0x' "$work/given" || fail "the backtrace doesn't name its function"
"$built/examples/bloat" "$built/binfarce" 1000000 >"$work/given"
sed '/by function:$/,$d; 1d' "$work/given" | awk '{ print $1, $3 }' | LC_ALL=C sort -k2 >"$work/crates"
"$built/binfarce" size --all --by=crate "$built/binfarce" | sed '/^sum /,$d' | awk '{ print $1, $2 }' | LC_ALL=C sort -k2 | cmp - "$work/crates" ||
    fail "bloat and \`binfarce size --all --by=crate\` differ"
printf %s '__attribute__((section(".dep-v0"), used)) static const char list[] = "x\234 packages"; int main(void) { return 0; }' |
    gcc -x c - -o "$work/recorded"
"$built/examples/audit" "$work/recorded" >/dev/null || fail "audit doesn't find the list of dependencies"
"$built/examples/audit" --extract "$work/recorded" | tail -c 10 | tr -d '\0' >"$work/given"
[ "$(cat "$work/given")" = " packages" ] || fail "audit doesn't read the list of dependencies"
for run in "symbols $work/symbols" "symbolize $work/symbols 1 401000" "listing $work/symbols" "refused $sample" "sections $work/symbols" \
    "pointers $sample" "hostile 500 100 $sample"; do
    valgrind --quiet --error-exitcode=9 --leak-check=full "$work"/$run >"$work/given" || fail "valgrind reports something of $run"
done
PATH="$(cd "$built" && pwd):$PATH" examples/fleet/test.sh || fail "the scripts for many files"
echo "examples: all clients agree"
