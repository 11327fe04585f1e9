#!/bin/sh
# examples/fleet/test.sh: tries the scripts of this folder with the `binfarce` in the PATH. It leaves out what needs packages that are missing.
set -eu
cd "$(dirname "$0")"
fail() { echo "fleet: $*" >&2; exit 1; }
command -v sqlite3 >/dev/null || { echo "fleet: left out, since sqlite3 isn't here (Debian: sqlite3)"; exit 0; }
export LC_ALL=C.UTF-8 work=$(mktemp -d) SHARE=1
trap 'kill -9 $(cat "$work"/pid/* 2>/dev/null) 2>/dev/null || true; rm -rf "$work"' EXIT; trap 'exit 130' HUP INT TERM
mkdir "$work/pid" "$work/files" "$work/stub"
program=$(command -v binfarce) || fail "binfarce isn't in the PATH"
cp "$program-list" "$work/files/app"
cp "$program" "$work/files/$(printf 'two "words"\nand lines')"
cp "$program" "$work/files/$(printf '\377"\\\n.')"
cp "$program-size" "$work/files/stripped" && strip "$work/files/stripped"
echo text >"$work/files/text"
ln "$work/files/app" "$work/link"

# rows: the lines of files, in order.
rows() { grep -v -e '^{"sizes":' -e '^{"done":' -e '^{"end":' | sort; }
# refuses DATABASE LINES WHAT: `load` takes nothing, and says why.
refuses() { ! ./load "$1" <"$2" 2>"$work/said" || fail "$3 is loaded"; grep -q 'nothing is added' "$work/said" || fail "$3: $(cat "$work/said")"; }

{ find "$work/files" -type f -print0; printf '%s/link\0' "$work"; } >"$work/list"
./sizes --label=one 1 <"$work/list" >"$work/whole" 2>"$work/said"
rows <"$work/whole" >"$work/one"
{ binfarce size --json "$work"/files/[ast]* 2>/dev/null || true
    printf '%s\n' '{"file":"'"$work"'/files/\\xff\"\\\n.","error":"the name is not UTF-8"}'
    printf '{"file":"%s/link","same_as":"%s/files/app"}\n' "$work" "$work"; } | sort >"$work/wanted"
diff "$work/wanted" "$work/one" || fail "other lines"
tail -n 1 "$work/said" | grep -q '6 files: 2 summed, 3 refused, 1 links' || fail "other counts: $(cat "$work/said")"
SHARE=3 ./sizes --label=one 3 <"$work/list" 2>"$work/said" | rows | cmp - "$work/one" || fail "three processes write other lines"
./sizes 2 --no-option <"$work/list" >"$work/none" 2>"$work/said" && fail "a wrong call ends with 0"
grep -q -e --no-option "$work/said" || fail "a wrong call isn't said: $(cat "$work/said")"
refuses "$work/none.db" "$work/none" "a call that fails"

# What an interruption leaves is no snapshot, and `--resume` does the rest alone.
printf '#!/bin/sh\nfor last; do :; done\necho "$last" >>"%s/asked"\ncase $last in */app) [ -e "%s/free" ] || { echo $$ >"%s/pid/stub"; exec sleep 600; };; esac\nexec "%s" "$@"\n' \
    "$work" "$work" "$work" "$program" >"$work/stub/binfarce" && chmod +x "$work/stub/binfarce"
# until_there FILE: waits for it, at most five minutes, as other work may take the processors.
until_there() { for _ in $(seq 3000); do [ ! -s "$1" ] || return 0; sleep 0.1; done; fail "nothing wrote $1: $(cat "$work"/*.log)"; }
# until_lines FILE COUNT: waits until so many shares are done.
until_lines() { for _ in $(seq 3000); do [ "$(grep -c '^{"done":' "$1" || true)" -lt "$2" ] || return 0; sleep 0.1; done; fail "$1 has fewer shares"; }
: >"$work/part"
PATH="$work/stub:$PATH" ./sizes --label=one 2 <"$work/list" >"$work/part" 2>/dev/null & client=$!
until_lines "$work/part" 3
until_there "$work/pid/stub"
kill -9 "$client" && kill "$(cat "$work/pid/stub")" && rm "$work/pid/stub"
wait "$client" 2>/dev/null || true
refuses "$work/none.db" "$work/part" "a part"
head -c -3 "$work/part" >"$work/torn"
refuses "$work/none.db" "$work/torn" "a torn line"
cat "$work/torn" "$work/whole" >"$work/two"
refuses "$work/none.db" "$work/two" "a part before a whole"
[ "$(sqlite3 "$work/none.db" 'SELECT count(*) FROM snapshots')" = 0 ] || fail "a part is a snapshot"
touch "$work/free" && : >"$work/asked"
PATH="$work/stub:$PATH" ./sizes --label=one --resume="$work/part" 2 <"$work/list" 2>"$work/said" >"$work/resumed"
rows <"$work/resumed" | cmp - "$work/one" || fail "other lines after an interruption"
[ "$(grep -c / "$work/asked")" = 1 ] || fail "what was done is done again: $(cat "$work/asked")"
! ./sizes --label=one --resume="$work/part" 2 --dynamic <"$work/list" >"$work/none" 2>/dev/null || fail "other options are resumed"
! ./sizes --resume="$work/part" 2 <"$work/list" >"$work/none" 2>/dev/null || fail "another label is resumed"
cp "$work/part" "$work/same"
! ./sizes --label=one --resume="$work/same" 2 <"$work/list" >"$work/same" 2>"$work/said" || fail "an output is resumed from itself"
grep -q 'also the output' "$work/said" || fail "an output that is resumed isn't said: $(cat "$work/said")"
! echo a | ./sizes 1 >"$work/none" 2>/dev/null || fail "names without a NUL end with 0"
# Where ssh is cut off, the machine's lines end early.
{ ./sizes --host=web1 1 <"$work/list"; ./sizes --host=web2 1 <"$work/list" | head -n 4; } >"$work/cut" 2>/dev/null
refuses "$work/none.db" "$work/cut" "what a lost machine wrote"
{ ./sizes --host=web1 1 <"$work/list"; ./sizes --host=web2 1 --dynamic <"$work/list"; } >"$work/cut" 2>/dev/null
refuses "$work/none.db" "$work/cut" "a machine with other options"

./load "$work/db" <"$work/whole"
cp "$work/files/app" "$work/old" && rm "$work/files/app" && cp "$program" "$work/files/app"
./sizes --label=one 2 --dynamic <"$work/list" 2>/dev/null | ./load "$work/db"
./sizes --label=other 2 <"$work/list" 2>/dev/null | ./load "$work/db"
./sizes --label=one 2 <"$work/list" 2>/dev/null >"$work/two"
./load "$work/db" <"$work/two"
refuses "$work/db" /dev/null "nothing"
[ "$(sqlite3 "$work/db" 'SELECT count(*) FROM snapshots')" = 4 ] || fail "other snapshots"
sqlite3 -cmd '.parameter set :crate binfarce' "$work/db" <questions.sql >"$work/answers"
# answer HEADING: the rows below it.
answer() { sed -n "/^$1/,/^[A-Z][^|]*:/p" "$work/answers" | grep '^[0-9]'; }
[ "$(answer The | grep -c '|3|core$')" = 1 ] || fail "core isn't in three programs"
[ "$(answer Programs | wc -l)" = 3 ] || fail "the crate binfarce isn't in three programs"
binfarce diff "$work/old" "$program" | awk '$3 > 0 && $4 != "[total]" { print $3 + 0 "|" $2 "|" $4 }' | sort >"$work/grown"
answer What | grep -F "$work/files/app" | cut -d'|' -f1-3 | sort | cmp - "$work/grown" || fail "other growth than of binfarce diff"
[ "$(sqlite3 "$work/db" 'SELECT count(*) FROM sums WHERE ifnull(name, error) IS NULL')" = 0 ] || fail "a row has neither a name nor a reason"
[ "$(answer Refused | cut -d'|' -f1 | tr '\n' ' ')" = "1 1 " ] || fail "other refusals"
echo "fleet: one machine, as it must be"

for PYTHON in "${PYTHON:-python3}" /usr/bin/python3 none; do "$PYTHON" -c 'import distributed' 2>/dev/null && break; done
[ "$PYTHON" != none ] || { echo "fleet: Dask is left out, since it isn't here (Debian: python3-distributed)"; exit 0; }
# starts NAME COMMAND..: beside this script, which ends it.
starts() { it=$1; shift; "$@" >"$work/$it.log" 2>&1 & echo "$!" >"$work/pid/$it"; }
ends() { kill -9 "$(cat "$work/pid/$1")" && rm "$work/pid/$1"; }
# A worker whose binfarce never ends gets a share, another worker joins, and the first is killed.
rm "$work/free"
scheduler="$PYTHON -m dask scheduler --host 127.0.0.1 --port 0 --no-dashboard --no-show --scheduler-file $work/scheduler"
starts scheduler $scheduler
until_there "$work/scheduler"
address=$(sed -n 's/^ *"address": "\(.*\)",$/\1/p' "$work/scheduler")
worker="$PYTHON -m dask worker $address --nthreads 1 --no-nanny --no-dashboard --local-directory $work"
rows <"$work/two" >"$work/wanted"
timeout 900 "$PYTHON" ./sizes --label=one "$address" <"$work/list" >"$work/lines" 2>"$work/client.log" & client=$!
until_there "$work/client.log"
grep -q 'waiting for workers' "$work/client.log" || fail "Dask: waiting isn't said"
PATH="$work/stub:$PATH" starts first $worker
until_there "$work/pid/stub"
starts second $worker
ends first; kill "$(cat "$work/pid/stub")"; rm "$work/pid/stub"
wait "$client" || fail "Dask: $(cat "$work/client.log")"
rows <"$work/lines" | cmp - "$work/wanted" || fail "Dask gives other lines"
./load "$work/db" <"$work/lines"
! printf 'a\0b\0' | "$PYTHON" ./sizes "$address" --no-option >"$work/lines" 2>/dev/null || fail "Dask: a wrong call ends with 0"
refuses "$work/none.db" "$work/lines" "Dask: a wrong call"
# A scheduler that is killed leaves no snapshot.
ends second
PATH="$work/stub:$PATH" starts first $worker
timeout 900 "$PYTHON" ./sizes --label=one "$address" <"$work/list" >"$work/part" 2>"$work/client.log" & client=$!
until_there "$work/pid/stub"
ends scheduler
! wait "$client" || fail "Dask: a lost scheduler ends with 0"
grep -q 'is lost' "$work/client.log" || fail "Dask: the lost scheduler isn't said: $(cat "$work/client.log")"
refuses "$work/none.db" "$work/part" "Dask: what a lost scheduler leaves"
./sizes --label=one --resume="$work/part" 2 <"$work/list" 2>/dev/null | rows | cmp - "$work/wanted" || fail "Dask: other lines after a lost scheduler"
echo "fleet: Dask, with a worker and a scheduler that are killed, as it must be"
