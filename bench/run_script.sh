#!/bin/sh
# Times the reading of scripts of the largest sizes, as `rt run` builds script_bench, beside `wc -l` of the same files:
# one run, on one machine. Prints the seconds of each and the ratio. Usage: bench/run_script.sh [TIMES]
set -eu
top=$(cd "$(dirname "$0")/.." && pwd)
times=${1:-20}
. "$top/bench/seconds.sh"
tool=$(mktemp -d)
trap 'rm -rf "$tool"' EXIT
(cd "$top/crates/script_bench" && rt run <"$top/crates/script_bench/stdin" >"$tool/build.log" 2>&1) ||
    { cat "$tool/build.log"; exit 1; }

head_of() { printf 'cygscript 1\nslots 64\nrows 4000\nbudget 500000\n'; }

# 32 programs of 4000 instructions, and one of 10,000 directives; a comment fills each text up to the most bytes
{ head_of; awk 'BEGIN {
    for (p = 0; p < 32; p++) {
        printf "program p%d heap 0 stack 64\n", p
        for (i = 0; i < 4000; i++) print "exit 0"
    }
    print "schedule"; print "settle"
}'; } >"$tool/programs"
{ head_of; awk 'BEGIN {
    print "program main heap 0 stack 64"; print "exit 0"; print "schedule"
    for (i = 0; i < 10000; i++) print "turn 64 2"
}'; } >"$tool/directives"

for name in programs directives; do
    file=$tool/$name
    awk -v most=1048576 -v have="$(wc -c <"$file")" 'BEGIN {
        left = most - have
        while (left > 0) { n = left > 200 ? 200 : left; if (left - n == 1) n--
            printf "#"; for (i = 2; i < n; i++) printf "."; printf "\n"; left -= n }
    }' >>"$file"
    reader=$(seconds "$times" "$file" "$top/crates/script_bench/out/script_bench")
    cat "$tool/out"
    counter=$(seconds "$times" "$file" wc -l)
    echo "$name $(wc -c <"$file") $times $reader $counter" | awk '{
        printf "%s: %d bytes, %d times: script_bench %.3f s, wc -l %.3f s, ratio %.1f\n", $1, $2, $3, $4, $5, $4 / $5
    }'
done
