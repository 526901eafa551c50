#!/bin/bash
# Looks at the line that tells how far a tool is: of tools/sweep, tools/shrink, tools/aftermath and
# tools/bundle, each on a terminal and off it, with tqdm and without it. The case with tqdm is
# skipped, by a line that says so, if no python3 here has it. One line for each case that fails, and
# at the end 'N passed, M failed'. It wants the proved program.
cd "$(dirname "$0")/.." || exit 1
. tests/cases.sh
needs_program

# python_with_tqdm: a python3 that has tqdm, or nothing
python_with_tqdm() {
    for python in python3 /usr/bin/python3; do
        "$python" -c 'import tqdm' 2> "$room/told" && command -v "$python" && return
    done
}
with_tqdm=$(python_with_tqdm)
[ -n "$with_tqdm" ] || echo 'skipped: no python3 here has tqdm (Debian: python3-tqdm), so its line was not looked at'

# shown PYTHON TOOL WORDS..: what a tool tells a terminal, a line for each time that its line was
# drawn. Without a PYTHON it is the first python3, which finds no tqdm
shown() {
    local python=$1 tool=$2 path=
    [ -n "$python" ] || { python=python3 path=tests/no_tqdm; }
    PYTHONPATH=$path tests/on_terminal.py "$python" "tools/$tool" "${@:3}" 2>&1 > "$room/out" | tr '\r' '\n'
}

# try NAME WITHOUT WITH WORDS..: the line matches WITHOUT if there is no tqdm and WITH if there is,
# and off a terminal none of it is told
try() {
    local name=$1 without=$2 with=$3
    shift 3
    same "${name}_in_words" 1 "$(shown '' "$@" | grep -m 1 -cE "$without")"
    same "${name}_off_terminal" 0 "$("tools/$1" "${@:2}" 2>&1 > "$room/out" | grep -cE "$without|$with")"
    [ -z "$with_tqdm" ] || same "${name}_by_tqdm" 1 "$(shown "$with_tqdm" "$@" | grep -m 1 -cE "$with")"
}

bundle=examples/lost_write.bundle
try shrink '^shrink: [0-9]+ tests, [0-9]+ lines, seed 0, [0-9.]+ seconds' '^shrink: [0-9]+ tests \[.*, [0-9]+ lines, seed 0\]' \
    shrink "$bundle" --lost --prompt
for folder in words lines none tqdm; do
    mkdir "$room/$folder"
done
estimate='[0-9.]+ seconds, about 0 seconds more, until [0-2][0-9]:[0-5][0-9]:[0-5][0-9]'
same sweep_in_words 1 "$(shown '' sweep "$bundle" --seeds 0..39 --chunk 20 --into "$room/words" |
    grep -cE "^sweep: 40 of 40 seeds, 2 of 2 parts, $estimate")"
same sweep_off_terminal 1 "$(tools/sweep "$bundle" --seeds 0..39 --chunk 20 --into "$room/none" 2>&1 | grep -c .)"
[ -z "$with_tqdm" ] || same sweep_by_tqdm 1 "$(shown "$with_tqdm" sweep "$bundle" --seeds 0..39 --chunk 20 --into "$room/tqdm" |
    grep -cE '^sweep: 100%.* 40/40 \[.*<.*seeds/s, 2 of 2 parts\]')"

try aftermath '^aftermath: 2 of 2 runs, [0-9]+ disks, 1 verdicts, [0-9.]+ seconds' '^aftermath: 100%.* 2/2 \[.*, [0-9]+ disks, 1 verdicts\]' \
    aftermath examples/filesystem/db.bundle --recording examples/filesystem/db.log.xz --outage disk=drop_writes --for 1ms \
    --at 900ms,901ms -- true {}

awk 'BEGIN { print "fio version 3 iolog\n0 f add\n0 f open"; for (i = 0; i < 300000; i++) print i, "f read 0 512" }' > "$room/long"
echo 'm: 0 8 zero' > "$room/tables"
try bundle "^read: [0-9]+ lines, $room/long, [0-9.]+ seconds" "^read: [0-9]+ lines \\[.*, $room/long\\]" \
    bundle --tables "$room/tables" --device m --between 299ms.. "$room/long"
finish
