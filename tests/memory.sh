#!/bin/bash
# Runs the program on four rows (a plain write and read, a bad block of dust, a write held by
# delay, and three logs), one of them from a file, and its traces and sweeps of two of them, with
# each of its requests for memory refused in turn. Each such run has to end with status 3 and `dmlab: no memory`, and to
# write nothing; without the room that a sweep asks for before its runs, only to be faster, it has
# to end as with it, and so where what is refused would only have given memory back. So has the
# check of a bundle with a mistake, unless the mistake was written before: then what is told
# besides is left out, or told whole, where a row of letters asks again for less room. Then a test of a run that goes on after a refusal, and one of a run by
# threads that does, have to pass with each of their own requests refused, the starts of threads
# among them. One line for each run that fails, and at the end 'N passed, M failed'. It wants the
# proved program and the built tests, glibc and a C compiler ($CC, or cc or clang), for the library
# that refuses.
cd "$(dirname "$0")/.." || exit 1
. tests/cases.sh
tests=crates/test_rows/out/test_rows_tests

# run REQUEST WORDS..: the program on the room's bundle, with the request of this number refused
run() {
    REFUSE=$1 LD_PRELOAD="$room/refuse_memory.so" \
        "$dmlab" "${@:2}" < "$room/bundle" > "$room/stdout" 2> "$room/stderr" 9> "$room/refused"
    status=$?
}

# whether the last run did what the program does where no request is refused
is_whole() {
    [ "$status" = "$wanted" ] && cmp -s "$room/told" "$room/stderr" && cmp -s "$room/wanted" "$room/stdout"
}

# whether the last run wrote the bundle's mistake, and told nothing besides
is_refusal() {
    [ "$status" = 1 ] && [ "$wanted" = 1 ] && [ ! -s "$room/stderr" ] && cmp -s "$room/wanted" "$room/stdout"
}

# whether the last run wrote the bundle's mistake, and all that is told besides
is_asked_again() {
    [ "$wanted" = 1 ] && is_whole
}

# whether the last run wrote nothing, and told why
is_no_memory() {
    [ "$status" = 3 ] && [ ! -s "$room/stdout" ] && [ "$(cat "$room/stderr")" = "dmlab: no memory" ]
}

# whether the last run was refused the 16 MiB that a sweep asks for before its runs, and did
# without them
is_without_room() {
    [ "$(cat "$room/refused")" = 16777216 ] && is_whole
}

# whether the last run was refused to keep less of a block, and did with all of it
is_not_given_back() {
    [[ $(cat "$room/refused") = less* ]] && is_whole
}

# refused NAME REQUEST: counts the last run, in which the request of this number was refused
refused() {
    local why=
    if ! { is_no_memory || is_refusal || is_asked_again || is_without_room || is_not_given_back; }; then
        why="status $status, $(head -qn 1 "$room/stderr" "$room/stdout" | tr '\n' ' ')"
    fi
    count "$1, request $2" "$why"
}

# row NAME WORDS..: a row's bundle by these words, with each request refused, up to a run in which
# there are fewer; that one has to do what the program does without the library
row() {
    "$dmlab" "${@:2}" < "$room/bundle" > "$room/wanted" 2> "$room/told"
    wanted=$?
    run 1 "${@:2}"
    for ((request = 1; request < 100000 && $(wc -c < "$room/refused"); request++)); do
        refused "$1" "$request"
        run $((request + 1)) "${@:2}"
    done
    local why=
    if [ "$request" = 1 ] || ! is_whole; then
        why="status $status with no request refused, after $((request - 1)) that were"
    fi
    count "$1" "$why"
}

# both NAME FOLDER: a run by the seed 1, and the audit of its history
both() {
    sed '/^== history/,$d' "tests/rows/$2/bundle" > "$room/bundle"
    "$dmlab" sim --seed 1 --history < "$room/bundle" | sed -n '/^== history/,$p' > "$room/history"
    row "$1 sim" sim --seed 1 --history
    cat "$room/history" >> "$room/bundle"
    row "$1 audit" audit
}

# studied NAME FOLDER: the trace of a run by the seed 1, and a sweep of two seeds
studied() {
    sed '/^== history/,$d' "tests/rows/$2/bundle" > "$room/bundle"
    row "$1 trace" trace --seed 1
    row "$1 sweep" sweep --last 1
}

# from_file NAME FOLDER: a run by the seed 1 of a bundle in a file, where standard input has none
from_file() {
    sed '/^== history/,$d' "tests/rows/$2/bundle" > "$room/file"
    : > "$room/bundle"
    row "$1 file" sim --seed 1 "$room/file"
}

# mistakes LINE..: the check of a bundle with this mistake in its table, its script or its log
mistakes() {
    printf '%s\n' "$@" > "$room/bundle"
    row "refused ${*: -1}" check
    { [ "$wanted" = 1 ] && [ -s "$room/told" ]; } || count "refused ${*: -1}" "status $wanted"
}

# again TEST: a test of the laboratory passes with each request refused in turn, up to a run with
# fewer
again() {
    echo x > "$room/refused"
    for ((request = 1; request < 100000 && $(wc -c < "$room/refused"); request++)); do
        local why=
        REFUSE=$request LD_PRELOAD="$room/refuse_memory.so" "$tests" "$1" > "$room/stdout" 2>&1 9> "$room/refused" ||
            why="status $?, $(head -n 1 "$room/stdout")"
        count "$1, request $request" "$why"
    done
}

needs_program
[ -x "$tests" ] || unable "crates/test_rows/out/test_rows_tests is not there: ./test or rt ci builds it"
compiler=${CC:-$(command -v cc || command -v clang)}
if [ -z "$compiler" ]; then
    echo "no C compiler, so no request for memory was refused"
    finish
    exit
fi
"$compiler" -shared -fPIC -O2 -o "$room/refuse_memory.so" tests/refuse_memory.c || unable "no library that refuses"

both write_and_read linear_write_and_read
both bad_block dust_bad_block
both held_write delay_released_by_a_suspend
both three_logs three_logs_checked
from_file write_and_read linear_write_and_read
studied write_and_read linear_write_and_read
studied held_write delay_released_by_a_suspend
mistakes '== script' 'ram 0 8' 'create m t' replay '== table t' '0 8s Linear /dev/ram0 # disk'
mistakes '== table t' '0 8 linear /dev/sdb 0' '== script' 'ram 0 8' replay 'dmsetup create m'
mistakes '== script' replay '== log a' 'fio version 2 iolog' '7 /dev/sdb fsync'
again tests::again::a_run_goes_on_after_a_refusal
again tests::again::a_run_by_threads_ends_after_a_refusal
finish
