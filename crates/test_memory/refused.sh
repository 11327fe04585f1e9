#!/bin/sh
# Lets each allocation of the rows fail in turn, from the first on until runs end in which none of theirs failed: there every row
# has to give its whole answer. In the other runs at most one row may be out of memory, and all others have to give theirs.
# Status 1 where that isn't so, or where some rows make as many allocations as fail here or more.
#
# The program is built once, with checks, and not proved; each of its runs is a file that names a group of rows and the number of
# the allocation that fails. One more run is the stored one, with what `stdin` has: it must print what `stdout` has.
set -eu
cd "$(dirname "$0")"
scratch=$(mktemp -d)
trying=
trap '[ -z "$trying" ] || kill "$trying" 2>/dev/null || true; rm -rf "$scratch"' EXIT
# Some shells end on a signal without their trap for EXIT.
trap 'exit 130' INT TERM HUP

# The groups, and more allocations than they make. What is called in the last four doesn't allocate, so of these the number is
# that of the rows' files and one more.
groups="listings 106 reports 139 symbols 80 names 116 kept 110 trimmed 72 crates 17 tuples 84 addresses 98 sections 131
    readings 154 files 31 unfit_images 25 refusals 32 truncated 7 counts 22 without_allocation 1"

mkdir "$scratch/runs"
echo $groups | xargs -n 2 | while read -r group most; do
    for number in $(seq "$most"); do echo "$group $number" >"$scratch/runs/$group-$number"; done
done
cp stdin "$scratch/runs/stored-1"
sample=e-elf64-little.bin
failed=$(sed -n 's/^const FAILED: usize = \([0-9]*\);/\1/p' src/main.rt)
rt try --data "$sample=data/$sample" --steps 1 --seconds 60 --fail-alloc "$failed" --cases "$scratch/runs" >"$scratch/ended" 2>&1 &
trying=$!
wait "$trying" || true
trying=
tail -n 1 "$scratch/ended"

# statuses GROUP: how its runs ended, a letter for each in their order: the status, or x where a run didn't end.
statuses() {
    sed -n "s|^case=$1-\([0-9]*\) run=ended status=\(.\) .*|\1 \2|p; t; s|^case=$1-\([0-9]*\) .*|\1 x|p" "$scratch/ended" |
        sort -n | sed 's/.* //' | tr -d '\n'
}
# printed RUN: what a run has printed.
printed() {
    sed -n "/^== $1\$/,/^case=/p" "$scratch/ended" | sed '1d; $d; /^allocations: /d'
}

wrong=0
printed stored-1 >"$scratch/stored"
[ "$(statuses stored)" = 0 ] && cmp stdout "$scratch/stored" || { echo "the stored run must print what stdout has"; wrong=1; }
echo $groups | xargs -n 2 | {
    while read -r group most; do
        ended=$(statuses "$group")
        right=$(expr "$ended" : '0*3*') || true
        count=$(expr "$ended" : '0*') || true
        if [ "$right" -lt "$most" ]; then
            echo "$group: wrong where allocation $((right + 1)) fails: $(printed "$group-$((right + 1))")"
            wrong=1
        elif [ "$count" -eq "$most" ]; then
            echo "$group: there are more than $((most - 1)) allocations"
            wrong=1
        else
            echo "$group: right whichever of $count allocations fails, and where none fails"
        fi
    done
    exit "$wrong"
}
