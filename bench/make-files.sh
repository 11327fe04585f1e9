#!/bin/sh
# Makes files to compare and to measure on, in FOLDER; what a missing compiler would have made is left out with a line.
#
# Usage: ./make-files.sh FOLDER
#        ./make-files.sh --grid SIDE    prints the Rust program alone, of SIDE times SIDE times 3 instances
set -u
trap 'exit 130' HUP INT TERM
side=20

# A line for each number of a row or a column, which replaces each & of the line.
numbered() {
    seq 0 $((side - 1)) | sed "s/.*/$1/"
}

# A grid of instances: for each row and column a generic function, a closure in it and a trait's method.
grid() {
    echo 'pub trait Weight { fn weight(&self, k: u64) -> u64; }'
    echo 'pub struct Cell<const R: usize, T>(pub T);'
    seq 0 $((side - 1)) | awk '{
        printf "pub mod column_%d { #[derive(Default)] pub struct Column_%d(pub Vec<(u8, Option<u%d>)>); }\n", $1, $1, 8 * 2 ^ ($1 % 4) }'
    cat <<'RUST'
impl<const R: usize, T> Weight for Cell<R, T> {
    #[inline(never)] fn weight(&self, k: u64) -> u64 { R as u64 ^ k.rotate_left(3) ^ std::mem::size_of::<T>() as u64 }
}
#[inline(never)] pub fn weigh<const R: usize, T: Default>(k: u64) -> u64 {
    let cell = Cell::<R, T>(T::default());
    let doubled = |x: u64| cell.weight(x) + cell.weight(x + 1);
    doubled(k)
}
RUST
    echo "macro_rules! row { (\$n:ident, \$r:literal) => { pub fn \$n(mut k: u64) -> u64 {"
    numbered 'k += weigh::<$r, column_&::Column_&>(k);'
    echo 'k } } }'
    numbered 'row!(row_&, &);'
    echo 'fn main() { let mut k = std::env::args().count() as u64;'
    numbered 'k += row_&(k);'
    echo 'println!("{}", k); }'
}
if [ "${1:-}" = --grid ]; then
    side=$2
    grid
    exit
fi
out=${1:?a folder for the files}
mkdir -p "$out"

make() {
    file=$1
    shift
    "$@" -o "$out/$file" 2>"$out/log" || echo "left out $file: $(grep -v '^ *$' "$out/log" | tail -n 1 | cut -c 1-120)"
}

grid >"$out/grid.rs"
cat >"$out/some.c" <<'C'
#include <stdio.h>
static int kept(int a) { return a * 3; }
__attribute__((weak)) int weak(int a) { return kept(a) + 1; }
__attribute__((noinline, section(".text.elsewhere"))) int elsewhere(int a) { return weak(a) - 2; }
int main(int count, char **words) { return printf("%d %s\n", elsewhere(count), words[0]) > 0 ? 0 : 1; }
C

make c gcc -O2 "$out/some.c"
make c.o gcc -O2 -c "$out/some.c"
make c.so gcc -O2 -shared -fPIC "$out/some.c"
make c-static gcc -O2 -static "$out/some.c"
for target in i686-linux-gnu arm-linux-gnueabihf s390x-linux-gnu powerpc-linux-gnu mips-linux-gnu; do
    make "c-${target%%-*}" $target-gcc -O2 "$out/some.c"
    make "c-${target%%-*}.o" $target-gcc -O2 -c "$out/some.c"
    make "c-${target%%-*}-static" $target-gcc -O2 -static "$out/some.c"
done
make c.exe x86_64-w64-mingw32-gcc -O2 "$out/some.c"
printf 'int weak(int a) { return a; }\nint main(int a) { return weak(a); }\n' >"$out/plain.c"
make macho.o clang -target arm64-apple-macos11 -g -c "$out/plain.c"
make macho-x86_64.o clang -target x86_64-apple-darwin -c "$out/plain.c"
# Its section of classes has a name of 16 full bytes, `__objc_classlist`.
cat >"$out/class.m" <<'OBJC'
__attribute__((objc_root_class)) @interface Counter
- (int)next;
@end
@implementation Counter { int count; }
- (int)next { return ++count; }
@end
OBJC
make macho-class.o clang -target x86_64-apple-macos -c "$out/class.m"
for mangling in legacy v0; do
    RUSTC_BOOTSTRAP=1 make "rust-$mangling" rustc --edition 2021 -A warnings -Zunstable-options \
        -C symbol-mangling-version=$mangling -C opt-level=0 -C codegen-units=16 "$out/grid.rs"
done
rm -f "$out/log"
