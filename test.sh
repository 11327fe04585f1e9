#!/bin/sh
# Runs all tests; the last line is `N passed, 0 failed`. First what takes seconds. Then the kit's gate, `rt ci`: it proves each crate
# and its tests, tries each wrong body, and runs the tests and the programs. Beside it runs what needs no proof. Last come the
# programs, proved and plain, side by side.
set -eu
cd "$(dirname "$0")"
[ $# -eq 0 ] || { echo "usage: ./test.sh" >&2; exit 2; }

tools="rt python3 cargo cargo-fmt cargo-clippy rustc gcc g++ nm readelf strip valgrind pkg-config groff tar setsid"
missing=$(for tool in $tools; do command -v "$tool" >/dev/null || echo "$tool"; done)
[ -z "$missing" ] || { echo "test.sh: these tools are missing:" $missing; exit 1; }

scratch=$(mktemp -d) beside=
trap '[ -z "$beside" ] || kill -- "-$beside" 2>/dev/null || true; rm -rf "$scratch"' EXIT; trap 'exit 130' HUP INT TERM
fail() { echo "test.sh: failed: $*"; exit 1; }

echo "commit $(git rev-parse HEAD 2>/dev/null)"
for part in bench/count.py tests/static tests/compare_erased.py tests/forms.py "tools/erase --check"; do
    $part || fail "$part"
done
# In a copy `rt fmt` must change nothing, and say nothing of a wrong body that can't be applied.
tar -c --exclude=out crates crates.txt | tar -x -C "$scratch"
ls -d "$scratch"/crates/* | xargs -I{} -P 4 sh -c 'cd {} && rt fmt' >"$scratch/layout" 2>&1 || echo "rt fmt failed" >>"$scratch/layout"
diff -r --exclude=out crates "$scratch/crates" >>"$scratch/layout" || true
[ ! -s "$scratch/layout" ] || { cat "$scratch/layout"; fail "the layout or a wrong body"; }

# The plain crate, with overflow checks as a build for tests has them, and the programs and libraries as users get them.
setsid sh -exc 'tests/lints.sh; cargo test --offline --workspace; examples/run.sh; tests/install.sh; tests/unproved.sh
    tests/forms.py --kit' >"$scratch/plain" 2>&1 &
beside=$!
times >"$scratch/before"
{ rt ci || true; } 2>&1 | tee "$scratch/gate" | sed '$d'
times >"$scratch/after"
awk -F '[ms ]+' 'FNR == 2 { spent[FILENAME] = $1 + $2 / 60 + $3 + $4 / 60 }
    END { printf "rt ci took %.0f processor minutes\n", spent[ARGV[2]] - spent[ARGV[1]] }' "$scratch/before" "$scratch/after"
last=$(tail -n 1 "$scratch/gate")
wait "$beside" || { cat "$scratch/plain"; fail "what runs beside rt ci"; }
beside=
cat "$scratch/plain"
# A wrong body that can't be read shows nothing, and `rt ci` passes it.
! grep "BAD EDIT" "$scratch/gate" || fail "wrong bodies; rt ci: $last"
case $last in *" passed, 0 failed") ;; *) fail "rt ci: $last" ;; esac

proved="$scratch/proved" built="${CARGO_TARGET_DIR:-target}/release"
for name in command list size; do install -D "crates/binfarce_$name/out/binfarce_$name" "$proved/binfarce-$name"; done
mv "$proved/binfarce-command" "$proved/binfarce"
tests/programs.py "$built" || fail "the plain programs"
tests/programs.py "$proved" "$built" || fail "the proved programs, or the plain ones beside them"
sed -n 's/^test result: ok[.] \([0-9]*\) passed.*/\1/p' "$scratch/plain" |
    awk -v gate="${last%% *}" '{ gate += $1 } END { print gate " passed, 0 failed" }'
