# shellcheck shell=sh
# The part that ./test and ./build have in common, for the shell that reads it first: how long the run took.
start=$(date +%s)

# seconds: since the start
seconds() {
    echo $(($(date +%s) - start))
}

# took FILE: one line with the seconds and the processor minutes of all that has run. The file is
# for its use: `times` tells a shell's own children, so it can't stand in a pipe.
took() {
    times > "$1"
    echo "took $(seconds) seconds, $(tail -n 1 "$1" | tr 'ms' '  ' | awk '{ printf "%.0f", $1 + $3 + ($2 + $4) / 60 }') processor minutes"
}
