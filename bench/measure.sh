#!/bin/sh
# Measures the listing program beside its peers on the files given, into /dev/null, and prints ratios to the program.
#
#   LIST      (optional) the listing program, if not the one that cargo has built
#   SIZE      (optional) the reporting program, if not the one that cargo has built
#   PEER      (optional) the program of bench/peer, which makes the same listing by the Rust crate
#   ROWS      (optional) a file to which each figure is added as a row (results.tsv is one): date, commit, machine, file,
#             command, ms, MiB and instructions, with tabs between them
#   RUNS      (optional) runs of each command, 15
#   COUNT     (optional) 1 counts instructions too, by callgrind (slow)
#
# Usage: ./measure.sh FILE..
#
# Names of files hold neither tabs nor line feeds.
#
# The runs of a round follow one another, so that a busy machine is as busy for all of them; the least wall time of
# each command counts. The peak is the greatest resident set of one run.
set -euf
LIST=${LIST:-$(dirname "$0")/../target/release/binfarce-list}
SIZE=${SIZE:-$(dirname "$0")/../target/release/binfarce-size}
runs=${RUNS:-15}
scratch=$(mktemp -d)
trap 'rm -rf "$scratch"' EXIT
trap 'exit 130' HUP INT TERM

tab=$(printf '\t')
machine="$(nproc) processors, $(awk '/^MemTotal:/ { printf "%.0f GB", $2 / 1000000 }' /proc/meminfo), $(sed -n 's/^model name[^:]*: //p' /proc/cpuinfo | head -n 1)"
commit=$(git -C "$(dirname "$0")" rev-parse --short HEAD 2>/dev/null || echo -)

# A line of a command: its title, and its words, with a tab before each.
line() {
    printf '%s' "$1"
    shift
    printf '\t%s' "$@"
    echo
}

# The commands that are there for a file, one a line.
commands() {
    line program "$LIST" "$1"
    [ ! -x "$SIZE" ] || line report "$SIZE" "$1"
    [ -z "${PEER:-}" ] || line original "$PEER" list "$1"
    line 'nm -S' nm -S --defined-only "$1"
    line 'nm -SC' nm -S -C --defined-only "$1"
    ! command -v llvm-nm >/dev/null || line llvm-nm llvm-nm -S --defined-only --no-demangle "$1"
    ! command -v llvm-nm >/dev/null || line 'llvm-nm -C' llvm-nm -S -C --defined-only "$1"
    line cat cat "$1"
}

peak() {
    /usr/bin/time -f %M -o "$scratch/peak" "$@" >/dev/null 2>&1 || true
    tail -n 1 "$scratch/peak"
}

instructions() {
    valgrind --tool=callgrind --callgrind-out-file=/dev/null "$@" 2>&1 >/dev/null |
        awk '/Collected/ {counted = $NF} END {print counted ? counted : "-"}'
}

for file in "$@"; do
    [ -r "$file" ] || { echo "can't read $file" >&2; exit 1; }
    cat "$file" >/dev/null
    commands "$file" >"$scratch/commands"
    python3 - "$runs" "$scratch/commands" >"$scratch/times" <<'PY'
import subprocess, sys, time
commands = [line.rstrip("\n").split("\t") for line in open(sys.argv[2])]
least = {}
for _ in range(int(sys.argv[1])):
    for title, *command in commands:
        start = time.perf_counter()
        done = subprocess.run(command, stdout=subprocess.DEVNULL, stderr=subprocess.DEVNULL)
        spent = time.perf_counter() - start
        if done.returncode == 0:
            least[title] = min(spent, least.get(title, spent))
for title, *command in commands:
    print(title, least.get(title, "-"), *command, sep="\t")
PY
    echo
    echo "$(basename "$file"): $(wc -c <"$file") bytes, $(($("$LIST" "$file" | wc -l) - 1)) lines"
    printf '%-12s %9s %9s %7s %7s %14s\n' command ms peak_MiB x_time x_peak instructions
    first_time='' first_peak=''
    while read -r it; do
        IFS=$tab
        set -- $it
        unset IFS
        title=$1 least=$2
        shift 2
        [ "$least" != - ] || { printf '%-12s refuses the file\n' "$title"; continue; }
        kilobytes=$(peak "$@")
        counted=-
        [ -z "${COUNT:-}" ] || counted=$(instructions "$@")
        first_time=${first_time:-$least} first_peak=${first_peak:-$kilobytes}
        line "$title" "$least" "$kilobytes" "$first_time" "$first_peak" "$counted" | awk -F '\t' '{
            printf "%-12s %9.2f %9.1f %7.2f %7.2f %14s\n", $1, $2 * 1000, $3 / 1024, $4 / $2, $5 / $3, $6 }'
        [ -z "${ROWS:-}" ] || line "$(date -I)" "$commit" "$machine" "$(basename "$file")" "$title" \
            "$(awk "BEGIN { printf \"%.2f\", $least * 1000 }")" "$(awk "BEGIN { printf \"%.1f\", $kilobytes / 1024 }")" "$counted" >>"$ROWS"
    done <"$scratch/times"
done
