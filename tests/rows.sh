#!/bin/bash
# Runs the program on the cases of tests/rows/, on the examples and on some cases that are made
# here. One line for each case that fails, and at the end 'N passed, M failed'. It wants the proved
# program.
#
# A case is a folder with bundle (the input), words (one line), status (the exit status that is
# wanted) and stdout (the whole output), or lines (lines that stand in the output in this order);
# stderr, where it is there, is the whole of standard error.
cd "$(dirname "$0")/.." || exit 1
. tests/cases.sh

# the first difference between the wanted text and the text that came
differs() {
    cmp -s "$1" "$2" || diff "$1" "$2" | sed -n '/^[<>]/p' | head -n 2 | tr '\n' ' '
}

# the first line of a file that doesn't stand in another, after those before it
missing() {
    awk 'NR == FNR { wanted[++count] = $0; next }
         $0 == wanted[found + 1] { found++ }
         END { if (found < count) print "there is no line " wanted[found + 1] }' "$1" "$2"
}

# run WORDS: the program on standard input, with its output, errors and status kept
run() {
    "$dmlab" "$@" > "$room/stdout" 2> "$room/stderr"
    status=$?
}

# ended STATUS [FILE]: why the run's end isn't the wanted one; standard error is that of the file.
# Without one it is empty at 0, and at 1 has one or two lines of dmlab's for each of standard output
ended() {
    if [ "$status" != "$1" ]; then
        echo "status $status and not $1; $(head -n 1 "$room/stderr")"
    elif [ -e "${2-}" ]; then
        differs "$2" "$room/stderr"
    elif [ "$1" = 0 ] && [ -s "$room/stderr" ]; then
        echo "standard error has $(head -n 1 "$room/stderr")"
    elif [ "$1" = 1 ] && ! is_advice; then
        echo "standard error has no advice: $(head -n 1 "$room/stderr")"
    fi
}

# is_advice: standard error has one or two lines for each line of standard output, and each begins
# with the program's name
is_advice() {
    local told faults
    told=$(grep -c '^dmlab: .' "$room/stderr") faults=$(wc -l < "$room/stdout")
    ((faults <= told && told <= 2 * faults)) && ! grep -qv '^dmlab: .' "$room/stderr"
}

# stored FOLDER: a case of tests/rows/
stored() {
    read -r -a words < "$1/words"
    run "${words[@]}" < "$1/bundle"
    why=$(ended "$(cat "$1/status")" "$1/stderr")
    if [ -e "$1/stdout" ]; then
        why+=$(differs "$1/stdout" "$room/stdout")
    else
        why+=$(missing "$1/lines" "$room/stdout")
    fi
    count "$(basename "$1")" "$why"
}

# example BUNDLE: an example of examples/ prints the text beside it; it is simulated unless a file
# beside it has other words
example() {
    words=(sim --seed 7)
    [ ! -e "${1%.bundle}.words" ] || read -r -a words < "${1%.bundle}.words"
    run "${words[@]}" < "$1"
    count "$(basename "$1")" "$(ended 0)$(differs "${1%.bundle}.out" "$room/stdout")"
}

# checked NAME STATUS LINE: `check` of standard input ends so, and writes this one line
checked() {
    run check
    echo "$3" > "$room/wanted"
    count "$1" "$(ended "$2")$(differs "$room/wanted" "$room/stdout")"
}

# newlines COUNT LINE: an input of so many newlines is refused with this line
newlines() {
    checked "$1_newlines" 1 "$2" < <(head -c "$1" /dev/zero | tr '\0' '\n')
}

# fault NAME LINE: the last run had status 3, this one line on standard error, and wrote nothing
fault() {
    echo "$2" > "$room/wanted"
    count "$1" "$(ended 3)$(differs "$room/wanted" "$room/stderr")$(differs /dev/null "$room/stdout")"
}

# wrong WORDS: words that name no job give status 2 and clap's text on standard error
wrong() {
    run "$@" < /dev/null
    why=$(ended 2)$(differs /dev/null "$room/stdout")
    [ -s "$room/stderr" ] || why+="nothing on standard error"
    count "words '$*'" "$why"
}

# cut FOLDER: the case's bundle cut after each byte is refused by one line, or it is done
cut() {
    read -r -a words < "$1/words"
    size=$(wc -c < "$1/bundle")
    why=
    for ((length = 0; length < size && ${#why} == 0; length++)); do
        run "${words[@]}" < <(head -c "$length" "$1/bundle")
        if [ "$status" = 1 ]; then
            head -n 1 "$room/stdout" | grep -E '^refused .+ [0-9]+ [A-Za-z0-9]+$' > "$room/wanted"
        else
            grep -E '^accepted budget=[0-9]+$' "$room/stdout" | cat - <(tail -n +2 "$room/stdout") > "$room/wanted"
        fi
        why=$([ "$status" = 1 ] || ended 0)$(differs "$room/wanted" "$room/stdout")
    done
    count "$(basename "$1")_cut" "${why:+after byte $((length - 1)): $why}"
}

needs_program

for folder in tests/rows/*/; do
    stored "${folder%/}"
done

for bundle in examples/*.bundle examples/tutorial/*.bundle; do
    example "$bundle"
done
examples/tutorial/sweep.sh > "$room/stdout" 2> "$room/stderr"
status=$?
count tutorial_sweep "$(ended 4)$(differs examples/tutorial/sweep.out "$room/stdout")"

cut tests/rows/linear_write_and_read
cut tests/rows/dust_bad_block

checked reads_of_a_disk 0 "accepted budget=16380" < <(tests/large.sh reads 0)
checked reads_of_a_disk_and_an_add 0 "accepted budget=16381" < <(tests/large.sh reads 1)
checked syncs_on_three_devices 0 "accepted budget=270473" < <(tests/large.sh syncs 3 1 0)
checked syncs_on_four_devices 1 "refused budget 0 V15" < <(tests/large.sh syncs 4 1 0)
checked syncs_on_32_devices 1 "refused budget 0 V15" < <(tests/large.sh syncs 32 1 0)
checked greatest_budget 0 "accepted budget=16777216" < <(tests/large.sh syncs 3 62 8256)
checked greatest_budget_and_an_add 1 "refused budget 0 V15" < <(tests/large.sh syncs 3 62 8257)
checked most_visited_pieces 0 "accepted budget=524355" < <(tests/large.sh pieces 63)
checked most_visited_pieces_and_a_sync 1 "refused budget 0 V15" < <(tests/large.sh pieces 64)

# a run of the greatest budget, with a quarter of a million bios at once
run sim < <(tests/large.sh syncs 3 62 8256)
count greatest_budget_run "$(ended 0)$(tail -n 1 "$room/stdout" | grep -q '^done steps=16777216 clock=0 now=0$' || echo " it ends with $(tail -n 1 "$room/stdout")")"

newlines 16777216 "refused bundle 0 NoScript"
newlines 16777217 "refused bundle 0 TooBig"

run check < /
fault input_is_a_folder "dmlab: read fault"
run check <&-
fault input_is_closed "dmlab: read fault"

bundle=tests/rows/linear_write_and_read/bundle
: > "$room/stdout"
"$dmlab" sim < "$bundle" > /dev/full 2> "$room/stderr"
status=$?
fault output_is_full "dmlab: write fault"
"$dmlab" sim < "$bundle" 2> "$room/stderr" >&-
status=$?
fault output_is_closed "dmlab: write fault"
status=$({ sleep 0.2; "$dmlab" sim < "$bundle" 2> "$room/stderr"; echo $? >&3; } 3>&1 > >(:))
fault output_is_a_closed_pipe "dmlab: write fault"

wrong
wrong help
for word in --version -V; do
    run "$word" < /dev/null
    echo "dmlab $(cat VERSION)" > "$room/wanted"
    count "version by $word" "$(ended 0)$(differs "$room/wanted" "$room/stdout")"
done
wrong --help
wrong sim --help
wrong sim --fail
wrong sim --lost --by-line
wrong nonsense
run check more < /dev/null
fault no_such_file "dmlab: more: No such file or directory (os error 2)"
wrong check --seed 1
wrong sim --seed
wrong sim --seed x
wrong sim --seed -1
wrong sim --seed 18446744073709551616
wrong sim $'\xff'
wrong trace --history
wrong trace --seed
wrong trace-history --seed 1
wrong trace-history --prompt
wrong disks-history --seed 1
wrong disks --history
wrong disks --eio
wrong sweep --last 1 --disks --stale
wrong sim --disks
wrong sweep
wrong sweep --last
wrong sweep --last x
wrong sweep --last 18446744073709551616
wrong sweep --seed 1 --last 2
wrong sweep --last 1 --fail
wrong sweep --last 1 --by-line
wrong sweep --first 2 --last 1
wrong sweep --first 2 --last 1 --lost
wrong trace --lost
wrong check --fail
wrong check --all=yes
wrong audit --all

# of an option that stands twice the last one counts
"$dmlab" sim --seed 2 --prompt < "$bundle" > "$room/wanted"
run sim --seed 1 --prompt --seed 2 --prompt < "$bundle"
count option_twice "$(ended 0)$(differs "$room/wanted" "$room/stdout")"

finish
