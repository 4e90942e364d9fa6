# The scripts beside this file read it in. They name in `tool` a folder for what is written.

# seconds TIMES FILE COMMAND..: how long the command takes on the file, so many times. The last output is $tool/out.
seconds() {
    left=$1
    input=$2
    shift 2
    begin=$(date +%s.%N)
    while [ "$left" -gt 0 ]; do "$@" <"$input" >"$tool/out"; left=$((left - 1)); done
    end=$(date +%s.%N)
    echo "$begin $end" | awk '{ printf "%.3f", $2 - $1 }'
}
