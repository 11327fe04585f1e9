#!/bin/sh
# Lets each of a program's allocations fail in turn and says how it ends: it may print its usage, where the arguments can't be
# taken, `out of memory`, or all that it prints of the file; anything else is shown as WRONG, and ends with status 1.
#
#   PROGRAM  (optional) the program: binfarce_list, binfarce_size, or binfarce_command
#   COMMAND  (optional) its command, as list
#   WORDS    (optional) what follows the file: the addresses of `at`
#   LAST     (optional) the last allocation that fails, 30; from some number on there is none left
#
# Usage: ./refuse-memory.sh FILE
set -eu
file=$(realpath "$1")
program=${PROGRAM:-binfarce_list}
shown=$(echo "$program" | tr _ -)
cd "$(dirname "$0")/../crates/$program"
scratch=$(mktemp -d)
trap 'rm -rf "$scratch"' EXIT
trap 'exit 130' HUP INT TERM

ends() {
    rt try "$@" --data "listed=$file" -- ${COMMAND:-} listed ${WORDS:-} 2>&1 |
        grep -v -e warning -e '^interpreter' -e '^checked' -e '^run=' -e '^allocations' || true
}

ends >"$scratch/whole"
request=1 wrong=0
while [ "$request" -le "${LAST:-30}" ]; do
    ends --fail-alloc "$request" >"$scratch/end"
    case $(cat "$scratch/end") in
        "$shown: out of memory" | "binfarce: out of memory" | "binfarce: listed: out of memory") how="out of memory" ;;
        "usage: $shown FILE [SECTION]") how="the usage" ;;
        "$(cat "$scratch/whole")") how="the whole" ;;
        *) how="WRONG: $(head -n 1 "$scratch/end")" wrong=1 ;;
    esac
    echo "allocation $request fails: $how"
    request=$((request + 1))
done
exit $wrong
