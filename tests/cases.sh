# shellcheck shell=bash
# The part that the scripts of this folder have in common, for the shell that reads it: the proved program, a room for
# files, the counts of cases, and their last line.
dmlab=$(cd "$(dirname "${BASH_SOURCE[0]}")/.." && pwd)/crates/dmlab/out/dmlab
room=$(mktemp -d) || exit 1
trap 'rm -rf "$room"' EXIT
passed=0 failed=0

# in_lines TEXT: the text, in which each ; stands for a line break, and \xHH for a byte
in_lines() {
    printf '%b\n' "$(printf '%s\n' "$1" | sed 's/ *; */\\n/g')"
}

# count NAME WHY: counts a case, which failed unless WHY is empty
count() {
    if [ -z "$2" ]; then
        passed=$((passed + 1))
    else
        failed=$((failed + 1))
        echo "$1: $2"
    fi
}

# differing WANTED CAME: the first lines in which two texts differ, on one line
differing() {
    [ "$1" = "$2" ] || diff <(echo "$1") <(echo "$2") | grep '^[<>]' | head -n 4 | tr '\n' ' '
}

# same NAME WANTED CAME: counts a case, which passed if the two texts are one
same() {
    count "$1" "$(differing "$2" "$3")"
}

# finish: the last line of a script, and its status
finish() {
    echo "$passed passed, $failed failed"
    [ "$failed" = 0 ]
}

# unable WHY: ends with no case done
unable() {
    echo "$1"
    passed=0 failed=1
    finish
    exit 1
}

# needs_program: ends if the proved program is not there
needs_program() {
    [ -x "$dmlab" ] || unable "crates/dmlab/out/dmlab is not there: ./test or rt ci builds it"
}
