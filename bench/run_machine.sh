#!/bin/sh
# Times the turns of machine_bench, as `rt run` builds it, with one slot and with 64: one run, on one machine. The time
# of no turns is taken off. Prints the turns a second of each, and their ratio. Usage: bench/run_machine.sh [TURNS]
set -eu
top=$(cd "$(dirname "$0")/.." && pwd)
turns=${1:-20000000}
tool=$(mktemp -d)
trap 'rm -rf "$tool"' EXIT
(cd "$top/crates/machine_bench" && rt run >"$tool/build.log" 2>&1) || { cat "$tool/build.log"; exit 1; }

# seconds SLOTS TURNS: how long it takes
seconds() {
    begin=$(date +%s.%N)
    "$top/crates/machine_bench/out/machine_bench" "$1" "$2" >"$tool/out"
    end=$(date +%s.%N)
    echo "$begin $end" | awk '{ printf "%.3f", $2 - $1 }'
}

for slots in 1 64; do
    start=$(seconds "$slots" 0)
    all=$(seconds "$slots" "$turns")
    cat "$tool/out"
    echo "$start $all" >"$tool/$slots"
done
cat "$tool/1" "$tool/64" | awk -v turns="$turns" '
    { rate[NR] = turns / ($2 - $1) }
    END {
        printf "%d turns\n", turns
        printf "1 slot: %.2f million turns a second\n", rate[1] / 1e6
        printf "64 slots: %.2f million turns a second\n", rate[2] / 1e6
        printf "ratio: %.2f\n", rate[2] / rate[1]
    }'
