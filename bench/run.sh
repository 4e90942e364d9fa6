#!/bin/sh
# Times vm_bench, as `rt run` builds it, beside the same loop in C at -O2: one run, on one machine. Prints how many
# instructions a second each does, and the ratio. Usage: bench/run.sh [BLOCKS]
set -eu
top=$(cd "$(dirname "$0")/.." && pwd)
blocks=${1:-1000000}
tool=$(mktemp -d)
trap 'rm -rf "$tool"' EXIT
(cd "$top/crates/vm_bench" && rt run >"$tool/build.log" 2>&1) || { cat "$tool/build.log"; exit 1; }
${CC:-cc} -O2 -o "$tool/vm_loop" "$top/bench/vm_loop.c"

# seconds COMMAND..: how long it takes
seconds() {
    begin=$(date +%s.%N)
    "$@" >"$tool/out"
    end=$(date +%s.%N)
    echo "$begin $end" | awk '{ printf "%.3f", $2 - $1 }'
}

rattle=$(seconds "$top/crates/vm_bench/out/vm_bench" "$blocks")
cp "$tool/out" "$tool/rattle.out"
c=$(seconds "$tool/vm_loop" "$blocks")
cmp "$tool/rattle.out" "$tool/out" || { echo "the two print different checksums"; exit 1; }
echo "$blocks $rattle $c" | awk '{
    n = $1 * 256
    printf "%d instructions\n", n
    printf "vm_bench: %.3f s, %.1f million a second\n", $2, n / $2 / 1000000
    printf "C at -O2: %.3f s, %.1f million a second\n", $3, n / $3 / 1000000
    printf "ratio: %.2f times the time of C\n", $2 / $3
}'
