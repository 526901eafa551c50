#!/bin/bash
# Runs tools/bench: its loads and recipes are accepted and have the events that are asked for, its
# table tells what a program of known time and memory takes, and wrong words are refused. One line
# for each case that fails, and at the end 'N passed, M failed'. It wants the proved program.
#
# The program `known` of most cases is a few lines of shell: it sleeps, and ends as dmlab does.
# What the table has to tell of it is known beforehand.
cd "$(dirname "$0")/.." || exit 1
. tests/cases.sh
needs_program

# between LEAST NUMBER MOST: says where a number isn't in its bounds
between() {
    awk -v least="$1" -v number="$2" -v most="$3" 'BEGIN { exit !(number ~ /^[0-9.]+$/ && least <= number && number <= most) }' ||
        echo "$2 is not from $1 to $3; "
}

# program NAME LINES..: a program of shell in the room
program() {
    printf '%s\n' '#!/bin/sh' "${@:2}" > "$room/$1"
    chmod +x "$room/$1"
}

# bench WORDS..: runs the tool, with its output, errors and status kept
bench() {
    tools/bench "$@" > "$room/stdout" 2> "$room/stderr"
    status=$?
}

# refused NAME STATUS LINE WORDS..: nothing is written but this last line on standard error
refused() {
    bench "${@:4}"
    same "$1" "status $2, bench: $3" "status $status, $(cat "$room/stdout")$(tail -n 1 "$room/stderr")"
}

# wrong WORDS..: words that are answered by status 2
wrong() {
    bench "$@"
    same "wrong_words '$*'" "status 2: " "status $status: $(cat "$room/stdout")"
}

# python LINES: python with the modules of tools/
python() {
    python3 -B -c "import sys; sys.path.insert(0, 'tools'); from dmlab_tools import bench_loads, bench_worst; $1"
}

# budgets LOAD BUDGET: the load of 10,000 events has this budget, and the run as many steps
budgets() {
    local bundle=$room/$1-10000.bundle
    why=$(differing "accepted budget=$2" "$("$dmlab" check < "$bundle")")
    why+=$(differing "done steps=$2" "$("$dmlab" sim --seed 1 < "$bundle" | tail -n 1 | cut -d ' ' -f 1,2)")
    count "$1_10000" "$why"
}

# column NUMBER: a column of the table's first row
column() {
    awk -v number="$1" '/^load / { table = NR + 1 } NR == table { print $number }' "$room/stdout"
}

# ---- loads. The budgets are worked out from docs/FORMATS.md: each log takes 3 beside its operations, and the script
# one for each create and one for the replay.
bench --events 10000 --runs 1 --keep "$room"
same runs 'status 0: ' "status $status: $(cat "$room/stderr")"
same columns 'load events seconds spread% events/s ns/event peak MB' "$(sed -n 2p "$room/stdout" | tr -s ' ')"
same rows 'stack logs held flushes big workers crowd reading ' "$(sed 1,2d "$room/stdout" | cut -d ' ' -f 1 | tr '\n' ' ')"
count all_within_a_tenth "$(sed 1,2d "$room/stdout" | awk '$2 < 9000 || $2 > 11000 { print $1 " has " $2 " events" }')"
same program_told "program: $dmlab (proved)" "$(head -n 1 "$room/stdout")"
budgets stack $((5 + 16 * 3 + 397 * (1 + 4 * 2 + 16)))
budgets logs $((3 + 64 * 3 + 466 * (1 + 2 * 2 + 16)))
budgets held $((3 + 64 * 3 + 280 * (1 + 2 + 8 * (2 + 1 + 1))))
budgets flushes $((3 + 8 * 6 + 2 * (1 + 2 + 64 * (2 + 64)) + 22 * (1 + 2 + 64)))
budgets big $((3 + 8 * 3 + 38 * (1 + 2 * 2 + 256)))
budgets workers $((3 + 64 * 3 + 466 * (1 + 2 * 2 + 16)))
budgets crowd $((3 + 8 * 6 + 2 * (1 + 2 + 64 * (2 + 64)) + 22 * (1 + 2 + 64)))
budgets reading $((5 + 16 * 3 + 397 * (1 + 4 * 2 + 16)))
python "sys.stdout.write(bench_loads.flushes(10000000))" | "$dmlab" check > "$room/told"
count flushes_10000000 "$(between 9900000 "$(sed -n 's/^accepted budget=//p' "$room/told")" 10000000)"
python "sys.stdout.write(bench_loads.many(10000000))" > "$room/many"
most=$(awk '/^==/ { lines = -1; next } ++lines > most { most = lines } END { print most }' "$room/many")
count many_10000000 "$(between 7000 "$most" 10000)$(between 12000000 "$(wc -c < "$room/many")" 16777216)"
same same_bytes "$(md5sum < "$room/stack-10000.bundle")" "$(python 'sys.stdout.write(bench_loads.stack(10000))' | md5sum)"

# ---- what is told of a program: 1,000 events in 0.2 seconds and a little, run once and then three times
program known "echo run >> '$room/known.runs'" 'sleep 0.2' 'echo done steps=900 clock=100 now=7'
bench --loads big --events 1000 --runs 3 --program "$room/known"
same known_runs 4 "$(wc -l < "$room/known.runs")"
same known_events 1000 "$(column 2)"
count known_seconds "$(between 0.2 "$(column 3)" 1)"
count known_rate "$(between 1000 "$(column 5)" 5000)$(between 200000 "$(column 6)" 1000000)"
count known_memory "$(between 0.1 "$(column 7)" 6)"
program half 'sleep 0.1' 'echo done steps=1000 clock=0 now=7'
bench --loads big --events 1e3 --runs 3 --program "$room/known" --against "$room/half"
count against_ratio "$(between 1.1 "$(column 13)" 3)"
same against_differs 'outputs differ' "$(tail -n 1 "$room/stdout" | grep -o 'outputs differ')"
bench --loads crowd --events 1e4 --runs 1 --program "$room/known" --against "$room/half"
same against_by_threads '' "$(tail -n 1 "$room/stdout" | grep -o 'outputs differ')"
program large 'exec python3 -c "b = bytes(100) * 1000000; print(\"accepted budget=5\")"'
bench --loads reading --events 1000 --runs 1 --program "$room/large"
count large_memory "$(between 100 "$(column 7)" 140)"
bench --loads big,reading --events 1000 --runs 2 --program "$room/known" --json
same json '[["big", 1000, 1000], ["reading", 1000, 1000]]' "$(python3 -c '
import json, sys
print(json.dumps([[row["load"], row["asked"], row["events"]] for row in json.load(sys.stdin)["rows"]]))' < "$room/stdout")"

# ---- recipes: each family's is accepted at a 32nd of the limits, those of few lines at the whole, and a search tells
# and keeps what it ran
python3 -B - "$room" << 'END'
import sys
sys.path.insert(0, "tools")
from dmlab_tools import bench_worst
for name, recipe in bench_worst.BEGINNINGS.items():
    with open(f"{sys.argv[1]}/{name.replace(' ', '_')}.family", "w") as file:
        file.write(bench_worst.text(recipe, 1 if recipe.action == "sync" else 1 / 32))
END
for family in "$room"/*.family; do
    count "$(basename "$family")" "$("$dmlab" check < "$family" | grep -v '^accepted budget=')"
done
bench --worst --seconds 1 --tries 3 -o "$room/slow"
same worst_status 'status 0, 3 recipes' "status $status, $(wc -l < "$room/stderr") recipes"
"$dmlab" sim --seed 1 < "$room/slow" | sed -n 's/^done steps=\([0-9]*\) clock=\([0-9]*\) .*/\1 \2/p' | awk '{ print $1 + $2 }' > "$room/events"
same worst_kept "$(sed -n 's/^events=\([0-9]*\) .*/\1/p' "$room/stdout")" "$(cat "$room/events")"

# ---- drafts: most of twenty are accepted, the same one gives the same bundle, and a search ends in time
drafts='import random; from dmlab_tools import bench_drawn as it; draw = random.Random(1)'
for part in drafts again; do
    mkdir "$room/$part"
    python "$drafts; [open(f'$room/$part/{n}', 'w').write(it.text(it.drawn(draw), 1)) for n in range(20)]"
done
count drafts_accepted "$(between 15 "$(for file in "$room"/drafts/*; do "$dmlab" check < "$file" 2> /dev/null; done | grep -c '^accepted')" 20)"
same drafts_again '' "$(diff -r "$room/drafts" "$room/again")"
bench --search 1 --seed 2
same search_status 'status 0, ' "status $status, $(cat "$room/stderr")"

# ---- the page: its numbers are written anew, and its other lines stay. In a copy its loads are small
mkdir -p "$room/copy/docs" "$room/copy/tests"
cp -r tools "$room/copy"
cp tests/large.sh "$room/copy/tests"
sed -i 's/(10000, 100000, 1000000), 10$/(1000, 2000, 3000), 10/; s/events=(10000000,)/events=(4000,)/' "$room/copy/tools/bench"
printf 'before\n%s\nold\n%s\nafter\n' '<!-- numbers: tools/bench --page writes them -->' '<!-- end of the numbers -->' > "$room/copy/docs/PERFORMANCE.md"
program quick 'echo done steps=1000 clock=0 now=0'
"$room/copy/tools/bench" --page --program "$room/quick" > "$room/stdout" 2> "$room/stderr"
page=$room/copy/docs/PERFORMANCE.md
same page_rows 27 "$(grep -c '^| `' "$page")"
count page_kept "$(differing 'before after' "$(sed -n '1p;$p' "$page" | tr '\n' ' ' | sed 's/ $//')")$(grep -x old "$page")"
echo nothing > "$page"
"$room/copy/tools/bench" --page --program "$room/quick" > "$room/stdout" 2> "$room/stderr"
same page_without_lines 'nothing bench: docs/PERFORMANCE.md: its line <!-- numbers: tools/bench --page writes them --> is gone' "$(cat "$page" "$room/stderr" | tr '\n' ' ' | sed 's/ $//')"

# ---- what can't be measured
program memory 'echo dmlab: no memory >&2' 'exit 3'
refused no_memory 1 "$room/memory check: status 3, dmlab: no memory" --loads reading --events 1000 --json --program "$room/memory"
program refuses 'echo refused budget 0 V15' 'exit 1'
refused refusal 1 "$room/refuses check: status 1, refused budget 0 V15" --loads reading --events 1000 --json --program "$room/refuses"
program silent 'exit 0'
refused silent 1 "$room/silent check: status 0, and nothing was written" --loads reading --events 1000 --json --program "$room/silent"
refused no_program 1 "$room/none: no program" --program "$room/none"
refused no_second_program 1 "$room/none: no program" --against "$room/none"
refused no_folder 1 "$room/none: no folder that can be written to" --keep "$room/none"
refused no_folder_for_the_worst 1 "$room/none: no folder that can be written to" --worst -o "$room/none/bundle"

# ---- wrong words
wrong --events 999
wrong --events 10000001
wrong --events 1e8
wrong --events many
wrong --events
wrong --loads stack,none
wrong --loads ''
wrong --runs 0
wrong --runs 1.5
wrong --page --json
wrong --page --events 1000
wrong --worst --events 1000
wrong --worst --page
wrong --search 0
wrong --search 3 --tries 2
wrong --seconds 3
wrong --seed 2
wrong -o "$room/bundle"
wrong --event 1000
wrong stack

finish
