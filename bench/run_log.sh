#!/bin/sh
# Times log_bench, as `rt run` builds it, beside a C program at -O2 that writes the same bytes with printf: one run, on
# one machine. Usage: bench/run_log.sh [ENTRIES]
set -eu
top=$(cd "$(dirname "$0")/.." && pwd)
entries=${1:-500000}
. "$top/bench/seconds.sh"
tool=$(mktemp -d)
trap 'rm -rf "$tool"' EXIT
(cd "$top/crates/log_bench" && rt run >"$tool/build.log" 2>&1) || { cat "$tool/build.log"; exit 1; }
${CC:-cc} -O2 -o "$tool/log_all" "$top/bench/log_all.c"

rattle=$(seconds 1 /dev/null "$top/crates/log_bench/out/log_bench" "$entries")
cp "$tool/out" "$tool/rattle.out"
c=$(seconds 1 /dev/null "$tool/log_all" "$entries")
cmp "$tool/rattle.out" "$tool/out" || { echo "the two write different logs"; exit 1; }
echo "$entries $rattle $c" | awk '{
    printf "%d entries\n", $1
    printf "log_bench: %.3f s\n", $2
    printf "C at -O2: %.3f s\n", $3
    printf "ratio: %.2f times the time of C\n", $2 / $3
}'
