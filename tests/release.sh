#!/bin/sh
# Tries the files of a release, which tools/release made in FOLDER, as users have them: on Debian, as root, without the kit. The
# programs run in CHROOT, best of an old Debian: `debootstrap --variant=minbase bullseye CHROOT` makes one.
set -eu
[ "$#" -eq 2 ] || { echo "usage: tests/release.sh FOLDER CHROOT" >&2; exit 2; }
folder=$(cd "$1" && pwd) chroot=$(cd "$2" && pwd)
cd "$(dirname "$0")/.."
scratch=$(mktemp -d) place=$(mktemp -d "$chroot/tmp/XXXXXX")
trap '[ "$?" -eq 0 ] || { cat "$scratch/log"; echo "release: failed: $now"; } >&2; rm -rf "$scratch" "$place"' EXIT
trap 'exit 130' HUP INT TERM
# rt isn't on this path.
export PATH="$(dirname "$(command -v cargo)"):/usr/sbin:/usr/bin:/sbin:/bin"
export LC_ALL=C.UTF-8 CARGO_TARGET_DIR="$scratch/target" CARGO_NET_OFFLINE=true
sample=crates/binfarce_list/data/e-elf64-little.bin listing=crates/binfarce_list/stdout
cp "$sample" "$place/sample"

# step TEXT: what comes now.
step() { now=$1 && echo "release: $now" && : >"$scratch/log"; }
# runs PREFIX: the programs in the chroot.
runs() {
    for run in "binfarce list" "binfarce size" binfarce-list binfarce-size; do
        ! readelf -lW "$1/bin/${run% *}" | grep INTERP || exit 1
        chroot "$chroot" "${1#"$chroot"}/bin/"$run "${place#"$chroot"}/sample" | cmp - "crates/binfarce_${run##*[ -]}/stdout"
    done
}
# builds LIBRARIES [WORD]: a client in C as `pkg-config [WORD]` says, over the shared library here, and static in the chroot.
builds() {
    export PKG_CONFIG_LIBDIR="$1/pkgconfig"
    eval "gcc examples/symbols.c -o '$scratch/client' $(pkg-config ${2:+"$2"} --cflags --libs binfarce)"
    LD_LIBRARY_PATH="$1" "$scratch/client" "$sample" | cmp - "$listing"
    eval "gcc -static examples/symbols.c -o '$place/client' $(pkg-config ${2:+"$2"} --static --cflags --libs binfarce)" 2>"$scratch/log"
    chroot "$chroot" "${place#"$chroot"}/client" "${place#"$chroot"}/sample" | cmp - "$listing"
}
# All files of the chroot, but those in which programs keep their state.
files() {
    find "$chroot" -xdev \( -path "$chroot/var" -o -path "$chroot/tmp" \) -prune -o -print | sort
}

step "sums, and lintian of the package"
(cd "$folder" && sha256sum --quiet -c SHA256SUMS)
lintian --allow-root --fail-on error,warning "$folder"/*.deb
step "the archive, unpacked; in the chroot of Debian $(cat "$chroot/etc/debian_version")"
tar -xf "$folder"/*.tar.gz -C "$place"
root=$(echo "$place"/binfarce-*)
head "$root/LICENSE" "$root/CHANGES.md" "$root/PROVENANCE" >/dev/null
runs "$root"
builds "$root/lib"
tests/programs.py "$root/bin"
step "the package, unpacked"
dpkg-deb -x "$folder"/*.deb "$place/package"
builds "$place/package/usr/lib/x86_64-linux-gnu" --define-variable=prefix="$place/package/usr"
step "the package, installed and removed"
files >"$scratch/before"
cp "$folder"/*.deb "$place/it.deb"
# The shared library needs a C library that an old chroot lacks; the programs don't.
chroot "$chroot" dpkg --force-depends -i "${place#"$chroot"}/it.deb" >"$scratch/log" 2>&1
runs "$chroot/usr"
chroot "$chroot" dpkg --purge binfarce >"$scratch/log" 2>&1
files | diff "$scratch/before" -
step "the crate: its tests and an example; installed by cargo"
tar -xf "$folder"/*.crate -C "$scratch"
source=$(echo "$scratch"/binfarce-*)
cargo test --quiet --manifest-path "$source/Cargo.toml" >"$scratch/log" 2>&1
cargo run --quiet --manifest-path "$source/Cargo.toml" --example list "$sample" | cmp - "$listing"
cargo install --quiet --path "$source" --root "$scratch/cargo"
"$scratch/cargo/bin/binfarce-list" "$sample" | cmp - "$listing"
step "as it must be"
