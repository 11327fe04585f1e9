#!/bin/sh
# Tries `install` and `uninstall`, with what cargo builds, and with a stub of cargo for what goes wrong. Status 1 if one errs.
set -eu
cd "$(dirname "$0")/.."
scratch=$(mktemp -d)
trap 'rm -rf "$scratch"' EXIT; trap 'exit 130' HUP INT TERM

fail() { echo "install: $what: $*" >&2; exit 1; }
# holds FOLDER FILES: these are all files below this folder.
holds() {
    there=$(find "$1" ! -type d -printf '%P\n' | LC_ALL=C sort)
    [ "$there" = "$2" ] || fail "other files: $there"
}
# runs STATUS LINE COMMAND..: ends with this status, and writes this line, if any, and nothing else.
runs() {
    wanted="$1: $2"
    shift 2
    written=$("$@" 2>&1) && ended=0 || ended=$?
    [ "$ended: $written" = "$wanted" ] || fail "ended with '$ended: $written', and must with '$wanted'"
}

what="what cargo builds, by a link, from another folder, below a prefix with a space"
prefix="$scratch/an empty prefix"
ln -s "$PWD/install" "$scratch/link"
(cd / && "$scratch/link" "$prefix")
library="include/binfarce.h lib/libbinfarce.a lib/libbinfarce.so lib/libbinfarce.so.1 lib/pkgconfig/binfarce.pc"
pages=$(ls rust/src/bin | sed 's|\(.*\)\.rs$|bin/\1 share/man/man1/\1.1|')
completions="share/bash-completion/completions/binfarce share/fish/vendor_completions.d/binfarce.fish share/zsh/site-functions/_binfarce"
installed=$(printf '%s\n' $library $pages $completions | LC_ALL=C sort)
holds "$prefix" "$installed"
sample=crates/binfarce_list/data/e-elf64-little.bin
"$prefix/bin/binfarce-list" "$sample" | cmp - crates/binfarce_list/stdout || fail "another listing"
[ "$(readlink "$prefix/lib/libbinfarce.so")" = libbinfarce.so.1 ] || fail "another link"
export PKG_CONFIG_PATH="$prefix/lib/pkgconfig" LD_LIBRARY_PATH="$prefix/lib"
pkg-config --validate binfarce
# As a shell reads what pkg-config prints.
eval "gcc examples/symbols.c -o '$scratch/client' $(pkg-config --cflags --libs binfarce)"
"$scratch/client" "$sample" | cmp - crates/binfarce_list/stdout || fail "another listing by a client"
readelf -d "$scratch/client" | grep -q 'NEEDED.*\[libbinfarce\.so\.1\]' || fail "the client asks for another library"

# completed SHELL LINE: what the shell, with what is installed, has for the last word: `--sort=size` as `size`, `--sort=` as `--sort`.
completed() {
    case $1 in
        bash) bash -c 'compopt() { :; } && source "$1/share/bash-completion/completions/binfarce"
            read -ra COMP_WORDS <<<"${2//=/ = }" && COMP_CWORD=$((${#COMP_WORDS[@]} - 1))
            "$(complete -p binfarce | cut -d" " -f3)"; printf "%s\n" "${COMPREPLY[@]}"' bash "$prefix" "$2" ;;
        fish) XDG_DATA_DIRS="$prefix/share" fish -c 'complete -C $argv' "$2" | sed 's/\t.*//; s/.*=//' ;;
        zsh) timeout 60 zsh -f "$scratch/tab" "$prefix/share/zsh/site-functions" "$2" | sed 's/ *$//; s/.* //; s/.*=\(.\)/\1/' ;;
    esac | sed 's/=$//'
}
cat >"$scratch/tab" <<'END'
# A shell at a terminal of its own, in which a line and a tab are typed. ^X writes the line as it is then, and ends that shell.
zmodload zsh/zpty
zpty shell "fpath=(${(q)1} \$fpath) zsh -fi"
zpty -w shell 'fpath=('${(q)1}' $fpath); autoload -Uz compinit; compinit -uD; show() { print -r "<<""<$BUFFER>>>"; exit }; zle -N show; bindkey ^X show'
zpty -n -w shell "$2"$'\t\C-X'
zpty -r -m shell written '*<<<*>>>*' && print -r -- ${${written##*<<<}%%>>>*}
END
objcopy --add-section 'odd$(>hit)=/dev/null' "$prefix/bin/binfarce-list" "$scratch/hostile"
for shell in bash fish zsh; do
    command -v "$shell" >/dev/null || { echo "install: completions of $shell are left out, since it isn't here (Debian: $shell)"; continue; }
    what="completions of $shell"
    while IFS='|' read -r line wanted; do
        given=$(PATH="$prefix/bin:$PATH" completed "$shell" "$line" </dev/null)
        [ "$given" = "$wanted" ] || fail "'$line' becomes '$given', and must become '$wanted'"
    done <<END
binfarce fil|filter
binfarce help se|section
binfarce --v|--version
binfarce diff --fail|--fail-above
binfarce diff --lim|--limits
binfarce list --sort=na|name
binfarce size --by=gen|generic
binfarce diff --by=mod|module
binfarce at --ann|--annotate
binfarce size --json --st|--std
binfarce section $sample .te|.text
binfarce section --id uninst|uninstall
binfarce list uninst|uninstall
binfarce list --und|--undefined
END
    # A hostile section's name is quoted, but for fish, which quotes what it takes from here; and no shell runs it.
    [ "$shell" = fish ] && wanted='odd$(>hit)' || wanted='odd\$\(\>hit\)'
    given=$(PATH="$prefix/bin:$PATH" completed "$shell" "binfarce section $scratch/hostile od" </dev/null)
    [ "$given" = "$wanted" ] && [ ! -e hit ] || fail "a hostile section is completed as $given"
done

what="removed again, but for what others put there"
echo mine >"$prefix/bin/other"
for time in first second; do
    runs 0 "" ./uninstall "$prefix"
    holds "$prefix" bin/other
done
what="below DESTDIR, the default prefix"
DESTDIR="$scratch/package" runs 0 "" ./install
holds "$scratch/package" "$(echo "$installed" | sed 's|^|usr/local/|')"
grep -qx prefix=/usr/local "$scratch/package/usr/local/lib/pkgconfig/binfarce.pc" || fail "the pkg-config file names another prefix"
what="another folder for the library"
for libdir in lib/x86_64-linux-gnu /usr/lib64; do
    DESTDIR="$scratch/$libdir" runs 0 "" ./install --libdir=$libdir /usr
    place=/usr/${libdir#/usr/}
    holds "$scratch/$libdir" "$(echo "$installed" | sed "s|^|usr/|; s|^usr/lib/|${place#/}/|" | LC_ALL=C sort)"
    given=$(PKG_CONFIG_PATH="$scratch/$libdir$place/pkgconfig" pkg-config --variable=libdir binfarce)
    [ "$given" = "$place" ] || fail "the pkg-config file has the library in $given"
    DESTDIR="$scratch/$libdir" runs 0 "" ./uninstall --libdir=$libdir /usr
    holds "$scratch/$libdir" ""
done

what="wrong calls, and what can't be written or built"
for script in install uninstall; do
    runs 2 "$script: PREFIX must begin with a slash, and is here" "./$script" here
    for words in "/a /b" "--libdir= /a" "--prefix=/a"; do runs 2 "usage: $script [--libdir=DIR] [PREFIX]" "./$script" $words; done
done
echo >"$scratch/file"
runs 1 "install: cannot write to $scratch/file/bin" ./install "$scratch/file"
mkdir -p "$scratch/taken/bin/binfarce-list/.keep"
runs 1 "install: cannot write $scratch/taken/bin/binfarce-list" ./install "$scratch/taken"
runs 1 "uninstall: cannot remove $scratch/taken/bin/binfarce-list" ./uninstall "$scratch/taken"
holds "$scratch/taken" ""
printf '#!/bin/sh\necho "error: no" >&2\nexit 101\n' >"$scratch/cargo"
chmod +x "$scratch/cargo"
export PATH="$scratch:$PATH"
runs 101 "error: no" ./install "$scratch/none"
printf '#!/bin/sh\n' >"$scratch/cargo"
export CARGO_TARGET_DIR="$scratch/target"
runs 1 "install: $scratch/target/release/binfarce-list is missing: cargo build --release makes it" ./install "$scratch/none"
[ ! -e "$scratch/none" ] || fail "something is installed"
echo "install: as it must be"
