#!/bin/sh
# Times `cyg check`, as `rt run` builds it, on two logs of view `events`, beside `wc -l` of the same files: one run, on
# one machine. The first log has 200,000 events of one process, the second 2,000 forks and reapings. Prints the events
# a second and the ratio. Usage: bench/run_check.sh [EVENTS [FORKS [TIMES]]]
set -eu
top=$(cd "$(dirname "$0")/.." && pwd)
events=${1:-200000}
forks=${2:-2000}
times=${3:-5}
. "$top/bench/seconds.sh"
tool=$(mktemp -d)
trap 'rm -rf "$tool"' EXIT
cyg=$top/crates/cyg/out/cyg

head_of() { printf 'cygscript 1\nslots 64\nrows 4000\nbudget 500000\n'; }

# one process that asks for its number and jumps back, again and again
{ head_of; awk -v most="$events" 'BEGIN {
    print "program main heap 0 stack 64"; print "getpid"; print "jump 0"; print "schedule"; print "settle"; print "=="
    print "log events"
    for (i = 0; i < most; i++) print i % 2 ? "run 2 1" : "get 2 pid 2"
    print "done given"
}'; } >"$tool/one"

# a process that has a child, which exits, and waits for it, again and again
{ head_of; awk -v most="$forks" 'BEGIN {
    print "program main heap 64 stack 64"
    print "fork"; print "jzero r0 4"; print "wait -1 0"; print "jump 0"; print "exit 7"
    print "schedule"; print "settle"; print "=="
    print "log events"
    for (i = 0; i < most; i++) {
        c = i + 3
        print "fork 2 " c; print "run 2 1"; print "look 2 " c; print "block 2"; print "run " c " 1"
        print "die " c " 7 exit"; print "notify 2"; print "discard 2 17"; print "reap 2 " c " 7"; print "run 2 1"
    }
    print "done given"
}'; } >"$tool/forks"

(cd "$top/crates/cyg" && rt run -- check <"$tool/forks" >"$tool/build.log" 2>&1) || { cat "$tool/build.log"; exit 1; }

for name in one forks; do
    file=$tool/$name
    check=$(seconds "$times" "$file" "$cyg" check)
    [ "$(cat "$tool/out")" = yes ] || { echo "$name: $(cat "$tool/out")"; exit 1; }
    count=$(seconds "$times" "$file" wc -l)
    lines=$(sed '1,/^==$/d' "$file" | wc -l)
    echo "$name $((lines - 2)) $times $check $count" | awk '{
        printf "%s: %d events, %d times: check %.3f s, %.2f million events a second; wc -l %.3f s, ratio %.0f\n",
            $1, $2, $3, $4, $2 * $3 / $4 / 1000000, $5, $4 / ($5 > 0 ? $5 : 0.001)
    }'
done
