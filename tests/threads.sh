#!/bin/bash
# Runs the program by threads, many times over, and audits each printed history: it has to be the
# history of the report that was printed with it. One line for each case that fails, and at the end
# 'N passed, M failed'. It wants the proved program.
cd "$(dirname "$0")/.." || exit 1
. tests/cases.sh
runs=200

# the part of the last run's output from its history on, and the report before the workers' counts
history() {
    sed -n '/^== history/,$p' "$room/run"
}
report() {
    sed '/^== history/,$d; /^fired /d' "$room/run"
}

# the events of the workers and of the sweep are all events of the last run
is_counted() {
    history | sed 1d | wc -l > "$room/events"
    grep '^fired ' "$room/run" | tr -cs '0-9' '\n' | awk '{ sum += $1 } END { print sum }' | cmp -s - "$room/events"
}

# nobody asked for a stop, so the workers of the last run left nothing for the sweep
is_swept_by_nobody() {
    grep -q '^fired .* swept 0$' "$room/run"
}

# each_run NAME BUNDLE: each run by threads ends, counts its events, leaves none to the sweep and is
# audited to its own report; the different histories are left in the file `histories`, one line each
each_run() {
    local why=
    : > "$room/all"
    for ((number = 1; number <= runs; number++)); do
        "$dmlab" threads --history < "$2" > "$room/run" 2> "$room/stderr" || why+=" run $number doesn't end;"
        history | cat "$2" - | "$dmlab" audit 2> /dev/null | cmp -s - <(report) || why+=" run $number isn't audited to its report;"
        is_counted || why+=" the counts of run $number aren't its events;"
        is_swept_by_nobody || why+=" run $number left events to the sweep;"
        history | tr '\n' ' ' >> "$room/all"
        echo >> "$room/all"
    done
    sort -u "$room/all" > "$room/histories"
    count "$1" "$why"
}

needs_program

# without their own histories
sed '/^== history/,$d' tests/rows/delay_released_by_a_suspend/bundle > "$room/released"
sed 's/random_read_corrupt 0/random_read_corrupt 500000000/' tests/rows/flakey_random_byte_at_no_chance/bundle > "$room/random_byte"
each_run released_by_a_suspend_by_threads "$room/released"
each_run resumed_before_the_wait_by_threads tests/rows/resumed_before_the_wait/bundle
each_run random_byte_in_half_the_reads_by_threads "$room/random_byte"
each_run three_logs_by_threads tests/rows/three_logs_checked/bundle
different=$(wc -l < "$room/histories")
echo "three_logs_by_threads: $different different histories in $runs runs"
count three_logs_two_histories_differ "$([ "$different" -gt 1 ] || echo "one history in $runs runs")"

finish
