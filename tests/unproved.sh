#!/bin/sh
# Tries, in a copy of the repository, what needs no proof: each failed allocation (crates/test_memory/refused.sh), and programs
# that the borrow checker must refuse: crates/NAME/must-not-compile/WHAT_outlives_WHAT.txt, which call the crate NAME. Each must be
# refused with the error in its first line, `// wants: ERROR`, alone. Their twins without the mistake, WHAT_within_WHAT.txt, must build.
# And what `./run` does: beside an `rt` that proves all, one that proves nothing, and none.
set -eu
scratch=$(mktemp -d)
trap 'rm -rf "$scratch"' EXIT; trap 'exit 130' HUP INT TERM

fail() { echo "unproved.sh: $*"; exit 1; }

tar -c -C "$(dirname "$0")/.." --exclude=.git --exclude=out --exclude=target . | tar -x -C "$scratch"
cd "$scratch/crates"
for word in within outlives; do
    mkdir -p "$word/src"
    printf '#![tactic(auto)]\n\n#[test]\nfn compiles() {}\n' >"$word/src/lib.rt"
    echo "$word: $(echo */must-not-compile | sed 's|/must-not-compile||g')" >>../crates.txt
    for program in */must-not-compile/*_"$word"_*.txt; do
        module=$(echo "$program" | sed 's|/must-not-compile/|_|; s|[.]txt$||')
        sed 1d "$program" >"$word/src/$module.rt"
        echo "mod $module;" >>"$word/src/lib.rt"
        sed -n "1s|^// wants: |$module |p" "$program" >>"$scratch/wanted"
    done
done
[ "$(ls within/src)" = "$(ls outlives/src | sed 's/_outlives_/_within_/' | sort)" ] || fail "a program lacks its twin"

(cd outlives && rt try --test) >"$scratch/printed" 2>&1 && status=0 || status=$?
grep error "$scratch/printed" | sed 's/^src.\([a-z0-9_]*\)[.]rt:[0-9:]* \(error\[[^]]*\]\).*/\1 \2/' | sort -u >"$scratch/errors"
[ "$status" -eq 1 ] && sort "$scratch/wanted" | diff - "$scratch/errors" ||
    fail "the programs must be refused with the errors marked by <, and by no others"
sed 's/ /: refused, as it must be, with /' "$scratch/errors"
(cd within && rt try --test) >"$scratch/printed" 2>&1 || fail "their twins: $(cat "$scratch/printed")"
test_memory/refused.sh

# The program prints its folder, its words and its input.
mkdir "$scratch/kit" "$scratch/its folder"
cat >"$scratch/kit/rt" <<'END'
#!/bin/sh
name=${PWD##*/}
[ "$name" != binfarce_elf ] || [ ! -e ../refused ] || { echo "no proof of $name"; exit 1; }
[ "$1" = run ] || exit 0
mkdir -p out
printf '#!/bin/sh\npwd\nprintf "%%s\\n" "$@"\ncat\nexit 3\n' >"out/$name"
chmod +x "out/$name"
echo "rt: running out/$name; to give it other input, run that file yourself" >&2
"out/$name"
END
chmod +x "$scratch/kit/rt"
runs() {
    (cd "$scratch/its folder" && echo input | PATH=$1 ../run binfarce list run 'a  b') >"$scratch/printed" 2>"$scratch/told" &&
        status=0 || status=$?
    [ "$status" = "$2" ] || fail "run: status $status: $(cat "$scratch/printed" "$scratch/told")"
}
# A word of the call is also a file.
touch "$scratch/its folder/run" "$scratch/its folder/list"
runs "$scratch/kit:$PATH" 3
printf '%s\n' "$scratch/its folder" list run 'a  b' input | diff - "$scratch/printed" || fail "run: another call"
grep -q "^run: 1 of [0-9]*: proving and building binfarce_text$" "$scratch/told" || fail "run: $(cat "$scratch/told")"
runs "$scratch/kit:$PATH" 3
[ ! -s "$scratch/told" ] || fail "run: what is built is proved again: $(cat "$scratch/told")"
touch "$scratch/crates/refused" "$scratch/crates/binfarce_elf/src/lib.rt"
runs "$scratch/kit:$PATH" 1
[ ! -s "$scratch/printed" ] && grep -q "^no proof of binfarce_elf$" "$scratch/told" || fail "run: what isn't proved runs"
runs /usr/bin:/bin 1
grep -q "cargo run --release" "$scratch/told" || fail "run: nothing is said where there is no kit"
echo "./run: as it was called, and only what is proved"
