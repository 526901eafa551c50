#!/bin/bash
# Runs the program under the seeds 0 to 255, and audits lists of events with one event taken out or
# doubled. One line for each case that fails, and at the end 'N passed, M failed'. It wants the
# proved program.
cd "$(dirname "$0")/.." || exit 1
. tests/cases.sh

# simulated SEED BUNDLE: a run with its history, in the file `run`, ends with its last line `done`
simulated() {
    "$dmlab" sim --seed "$1" --history < "$2" > "$room/run" || return 1
    sed '/^== history/,$d' "$room/run" > "$room/report"
    tail -n 1 "$room/report" | grep -q '^done steps='
}

# audited BUNDLE: the printed history of the last run audits to the run's own report
audited() {
    sed -n '/^== history/,$p' "$room/run" | cat "$1" - | "$dmlab" audit | cmp -s - "$room/report"
}

# each_seed NAME BUNDLE: under each seed all is done, and the printed history audits to its own
# report
each_seed() {
    local why=
    for seed in {0..255}; do
        simulated "$seed" "$2" || why+=" seed $seed doesn't end;"
        audited "$2" || why+=" seed $seed isn't audited to its report;"
    done
    count "$1" "$why"
}

# reads BUNDLE: the different answers to the read on line 4 under the seeds 0 to 255
reads() {
    for seed in {0..255}; do
        "$dmlab" sim --seed "$seed" < "$1" | grep '^4 read '
    done | sort -u
}

# parted BUNDLE: the bundle without its history, and the history's events apart
parted() {
    sed '/^== history/,$d' "$1" > "$room/bundle"
    sed '1,/^== history/d' "$1" > "$room/events"
}

# no NAME: the events on standard input are no complete run of the parted bundle
no() {
    { cat "$room/bundle"; echo '== history'; cat; } | "$dmlab" audit > "$room/answer"
    status=$?
    why=$(grep -Ev '^(not a run|unfinished) at [0-9]+$' "$room/answer")
    [ "$status" = 1 ] || why+=" status $status"
    count "$1" "$why"
}

# one_changed NAME BUNDLE: each list with one event taken out, and each with one doubled, gets a no
one_changed() {
    parted "$2"
    for place in $(seq "$(wc -l < "$room/events")"); do
        no "$1 without event $place" < <(sed "${place}d" "$room/events")
        no "$1 with event $place twice" < <(sed "${place}p" "$room/events")
    done
}

needs_program

# without their own histories
parted tests/rows/delay_released_by_a_suspend/bundle
cp "$room/bundle" "$room/released"
each_seed released_by_a_suspend_each_seed "$room/released"
each_seed resumed_before_the_wait_each_seed tests/rows/resumed_before_the_wait/bundle
each_seed three_logs_each_seed tests/rows/three_logs_checked/bundle
count three_logs_two_reads_differ "$([ "$(reads tests/rows/three_logs_checked/bundle | wc -l)" -gt 1 ] || echo "one read for all seeds")"
sed 's/random_read_corrupt 0/random_read_corrupt 500000000/' tests/rows/flakey_random_byte_at_no_chance/bundle > "$room/random_byte"
each_seed random_byte_in_half_the_reads_each_seed "$room/random_byte"
one_changed released_by_a_suspend tests/rows/delay_released_by_a_suspend/bundle

finish
