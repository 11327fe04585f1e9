#!/bin/sh
# tests/platforms.sh FOLDER: runs the unit tests of the crate rust/ on other machines, by Debian's compiler, linkers and qemu, which
# are unpacked in FOLDER and not installed. For each target it prints how many tests passed, or why it could not try. For WASI and
# Windows Debian has an older compiler alone, which can't build the tests: there the program `binfarce` must answer as here.
set -eu
[ "$#" -eq 1 ] || { echo "usage: tests/platforms.sh FOLDER" >&2; exit 2; }
mkdir -p "$1/lists/partial" "$1/archives/partial" "$1/packages"
folder=$(cd "$1" && pwd) place=root status=0 options="-qq -o APT::Architecture=amd64 -o APT::Architectures=amd64,arm64,i386,s390x"
cd "$(dirname "$0")/.."

apt() { apt-get $options -o Dir::State::Lists="$folder/lists" -o Dir::Cache="$folder" "$@" >"$folder/log" 2>&1; }
# get PACKAGE..: unpacks them, unless that was done before.
get() {
    for missing in "$@"; do
        [ -e "$folder/packages/$missing" ] || (rm -rf "$folder/new" && mkdir "$folder/new" && cd "$folder/new" &&
            apt download "$missing" && dpkg -x ./*.deb "$folder/$place" && mv "$folder/new" "$folder/packages/$missing") || return 1
    done
}
# try TARGET RUNNER LINKER PACKAGE..: runs the tests of a target. `-` is no RUNNER, or cc.
try() {
    target=$1 for=CARGO_TARGET_$(echo "$1" | tr a-z- A-Z_) root="$folder/root/usr"
    [ "$2" = - ] || export "${for}_RUNNER=$root/bin/$2"
    [ "$3" = - ] || export "${for}_LINKER=$root/bin/$3" "${for}_RUSTFLAGS=-Ctarget-feature=+crt-static"
    shift 3
    get "$@" || { echo "$target: not tried, since Debian has no $missing here" && return 0; }
    RUSTC="$root/bin/rustc" LD_LIBRARY_PATH="$root/lib/x86_64-linux-gnu:$root/lib" CARGO_TARGET_DIR="$folder/target" \
        cargo test --offline --package binfarce --lib --target "$target" >"$folder/log" 2>&1 || status=1
    sed -n "s/^test result: /$target: /p" "$folder/log" | grep . || { tail "$folder/log" && status=1; }
}
# answer TARGET RUNNER OPTION..: builds the program `binfarce`, and compares what it prints with what the one of this machine prints.
answer() {
    target=$1 runner=$2 runs=0
    shift 2
    compile() { RUSTC_BOOTSTRAP=1 LD_LIBRARY_PATH="$root/lib/x86_64-linux-gnu" "$root/bin/rustc" --edition 2021 -O --target "$target" \
        -Zcrate-attr='feature(let_else)' --cfg 'feature="std"' --cfg 'feature="programs"' "$@" >"$folder/log" 2>&1; }
    compile --crate-type rlib --crate-name binfarce -o "$folder/libbinfarce.rlib" rust/src/lib.rs &&
        compile --crate-name program "$@" --extern binfarce="$folder/libbinfarce.rlib" -o "$folder/program.exe" rust/src/bin/binfarce.rs ||
        { echo "$target: not built" && tail "$folder/log" && status=1 && return 0; }
    # For WASI this compiler's std has one status of failure.
    [ "$target" = wasm32-wasi ] && failed=1 || failed=
    for call in "list FILE" "list --all FILE" "list --json FILE" "size FILE" "size --all --by=function FILE" "map FILE" "section FILE" \
        "section FILE .text" "at FILE 0x1004" "at --all --annotate FILE" "filter" "diff rust/samples/elf64-little.bin FILE"; do
        for file in rust/samples/*.bin README.md "$here"; do
            words=$(echo "$call" | sed "s|FILE|$file|")
            "$here" $words <"$names" >"$folder/wanted" 2>"$folder/wanted-errors" || echo "status ${failed:-$?}" >>"$folder/wanted"
            $runner "$folder/program.exe" $words <"$names" >"$folder/given" 2>"$folder/given-errors" ||
                echo "status ${failed:-$?}" >>"$folder/given"
            cmp "$folder/wanted" "$folder/given" && cmp "$folder/wanted-errors" "$folder/given-errors" && runs=$((runs + 1)) ||
                { echo "$target: another answer to $words" && status=1 && return 0; }
        done
    done
    echo "$target: $runs answers are those of this machine"
}
field() { dpkg-deb -f "$folder/packages/$1"/*.deb "$2"; }
cross() { echo "libstd-rust-web-dev:$2 gcc-12-$1-linux-gnu binutils-$1-linux-gnu libgcc-12-dev-$2-cross libc6-dev-$2-cross"; }

apt update || :
get rustc-web qemu-user-static && std=libstd-rust-web-$(field rustc-web Version | cut -d. -f1,2) && get "$std" &&
    get $(field "$std" Depends | grep -o 'libllvm[0-9]*') || { echo "Debian has no $missing here" >&2; exit 1; }
try x86_64-unknown-linux-gnu - - libstd-rust-web-dev:amd64
try aarch64-unknown-linux-gnu qemu-aarch64-static aarch64-linux-gnu-gcc-12 $(cross aarch64 arm64)
try s390x-unknown-linux-gnu qemu-s390x-static s390x-linux-gnu-gcc-12 $(cross s390x s390x)
try i686-unknown-linux-gnu - i686-linux-gnu-gcc-12 $(cross i686 i386)

place=old root="$folder/old/usr"
get rustc && std=libstd-rust-$(field rustc Version | cut -d. -f1,2) && get "$std" &&
    get $(field "$std" Depends | grep -o 'libllvm[0-9]*') || { echo "Debian has no $missing here" >&2; exit 1; }
cargo build --offline --quiet --release --package binfarce --bin binfarce --target-dir "$folder/target"
here="$folder/target/release/binfarce" names=examples/names.txt
if ! command -v node >"$folder/log"; then
    echo "wasm32-wasi: not tried, since there is no node here"
elif get libstd-rust-dev-wasm32 wasi-libc lld-14; then
    cat >"$folder/wasi.js" <<'END'
const [program, ...words] = process.argv.slice(2), { WASI } = require("wasi");
const preopens = { ".": ".", [__dirname]: __dirname };
const wasi = new WASI({ version: "preview1", args: ["binfarce", ...words], preopens, returnOnExit: true });
WebAssembly.instantiate(require("fs").readFileSync(program), { wasi_snapshot_preview1: wasi.wasiImport })
    .then(({ instance }) => (process.exitCode = wasi.start(instance)));
END
    answer wasm32-wasi "node --no-warnings $folder/wasi.js" -Clinker="$root/lib/llvm-14/bin/wasm-ld" -Clinker-flavor=wasm-ld \
        -L "$root/lib/wasm32-wasi"
else
    echo "wasm32-wasi: not tried, since Debian has no $missing here"
fi
if get libstd-rust-dev-windows gcc-mingw-w64-x86-64-win32 gcc-mingw-w64-x86-64-win32-runtime binutils-mingw-w64-x86-64 \
    mingw-w64-x86-64-dev wine64 libwine libunwind8 libz-mingw-w64; then
    # Wine looks for these where they are installed.
    ln -sf wineserver64 "$root/lib/wine/wineserver"
    ln -sf "$root/x86_64-w64-mingw32/lib/zlib1.dll" "$root/lib/x86_64-linux-gnu/wine/x86_64-windows/zlib1.dll"
    export WINEPREFIX="$folder/prefix" WINEDEBUG=-all WINEDLLPATH="$root/lib/x86_64-linux-gnu/wine" WINELOADER="$root/lib/wine/wine64"
    LD_LIBRARY_PATH="$root/lib/x86_64-linux-gnu" "$WINELOADER" wineboot >"$folder/log" 2>&1 || :
    answer x86_64-pc-windows-gnu "env LD_LIBRARY_PATH=$root/lib/x86_64-linux-gnu $WINELOADER" -Clinker="$root/bin/x86_64-w64-mingw32-gcc-win32"
else
    echo "x86_64-pc-windows-gnu: not tried, since Debian has no $missing here"
fi
exit "$status"
