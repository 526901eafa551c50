#!/bin/bash
# Compares the program with a running Linux, scenario by scenario. Nothing is booted here: what the
# kernel did stands in transcripts, which tools/against_kernel wrote. One line for each scenario
# that fails, and at the end 'N passed, M failed'. It wants the proved program.
#
# A scenario is a folder of tests/kernel/ with
# - bundle: the input;
# - linux: what the kernel did. Lines that begin with # tell which kernel, and when. Behind them stands the report as
#   dmlab would write it or, of a bundle that dmlab refuses, how each line of the script ended. Where fio replayed the
#   log itself, a remark says so, and the lines are those that it issued;
# - differs: where the two don't agree, the short name of each entry of docs/KERNEL.md that tells why, and then the
#   lines that differ: dmlab's behind `< `, the kernel's behind `> `.
# random.txt has many scenarios that were made by chance, as tools/against_kernel --random makes them.
# So a scenario fails as soon as the program's answer is neither the kernel's nor the recorded one.
cd "$(dirname "$0")/.." || exit 1
. tests/cases.sh
page=$(< docs/KERNEL.md)

# kept FILE: puts a report's lines that are compared into `text`: neither the budget nor the count
# of the steps, and no remark; the last of these goes into `remark`
kept() {
    text='' remark=''
    while IFS= read -r line; do
        case $line in
        '#'*) remark=$line ;;
        'accepted '* | 'done '*) ;;
        *) text+=$line$'\n' ;;
        esac
    done < "$1"
}

# recorded FOLDER: puts the names of the entries that a folder's differences have into `entries`,
# the lines into `lines`
recorded() {
    entries=() lines=
    [ ! -e "$1/differs" ] || while IFS= read -r line; do
        case $line in
        [\<\>]*) lines+=$line$'\n' ;;
        *) entries+=("$line") ;;
        esac
    done < "$1/differs"
}

# using BUNDLE TABLE: the first line of the script that uses the table
using() {
    awk -v "table=$2" '/^==/ { line = 0; script = /^== script/; next }
        { line++ } script && $NF == table { print line; exit }' "$1"
}

# step BUNDLE WORDS..: the line of the script at which these words refuse the bundle
step() {
    case $3 in
    script) echo "$4" ;;
    table) using "$1" "$4" ;;
    esac
}

# refuses FOLDER: the program refuses the bundle, and the kernel refused the same line of the
# script before all others
refuses() {
    read -r -a words <<< "$mine"
    [ "${words[0]}" = refused ] || return 1
    [[ $theirs =~ script\ ([0-9]+)\ refused ]] && [ "${BASH_REMATCH[1]}" = "$(step "$1/bundle" "${words[@]}")" ]
}

# unlike FOLDER: the lines in which the two differ, unless they are those that are recorded
unlike() {
    "$dmlab" sim --prompt < "$1/bundle" > "$room/out" 2> "$room/errors"
    [ -s "$room/out" ] || head -n 1 "$room/errors"
    kept "$room/out"
    mine=$text
    kept "$1/linux"
    theirs=$text came=
    [ "$remark" ] || echo -n "the transcript doesn't tell which Linux it was; "
    if [ "$mine" != "$theirs" ] && ! refuses "$1"; then
        came=$(diff <(echo -n "$mine") <(echo -n "$theirs") | grep '^[<>]')$'\n'
    fi
    [ "$came" = "$lines" ] || echo -n "recorded: ${lines//$'\n'/ }; and now: ${came//$'\n'/ }"
}

# unnamed FOLDER: the page names the scenario, and has each entry that the scenario's differences
# name
unnamed() {
    [[ $page == *"\`${1##*/}\`"* ]] || echo -n "the page doesn't name it; "
    for entry in "${entries[@]}"; do
        [[ $page == *$'\n'"### \`$entry\`"$'\n'* ]] || echo -n "the page has no entry $entry; "
    done
}

# scenario FOLDER: it has a transcript, the program answers as is recorded, and the page tells of
# it
scenario() {
    why="it has no transcript"
    if [ -s "$1/linux" ]; then
        recorded "$1"
        why=$(unlike "$1"; unnamed "$1")
    fi
    count "${1##*/}" "$why"
}

# strays: the entries of the page that no scenario names
strays() {
    grep -o "^### \`.*\`\$" <<< "$page" | tr -d '# `' | while read -r entry; do
        grep -qsxF "$entry" tests/kernel/*/differs || echo -n "no scenario has the entry $entry; "
    done
}

# many: each random scenario, and each with moments, is the same, or differs as an entry says. Those of the random ones
# go into `random`
many() {
    random=
    while IFS= read -r line; do
        [[ $line != random_* ]] || random+=$line$'\n'
        case $line in
        *': the same'* | *': differs as docs/KERNEL.md says'* | *': Linux refuses it too'*) count "${line%%:*}" '' ;;
        ' '*) ;;
        *) count "${line%%:*}" "${line#*: }" ;;
        esac
    done < <(grep -lE '^# moments of |^=== ' tests/kernel/*/linux tests/kernel/random.txt | sed 's:/linux$::' |
        xargs -r tools/against_kernel --recorded)
}

# untold: the page tells how many random scenarios are the same, and how many differ at each entry
untold() {
    while IFS= read -r row; do
        [[ $page == *$'\n'"$row"* ]] || echo -n "the page has no row $row; "
    done < <(awk -F '`' '/: the same in other words/ { count["the same in the common words of dust\047s replies and flakey\047s status"]++; next }
        /: the same/ { count["the same"]++; next }
        { for (at = 2; at < NF; at += 2) count[FS $at FS]++ }
        END { for (name in count) print "| " name " | " count[name] " |" }' <<< "${random%$'\n'}")
}

needs_program
many
count random "$(untold)"
for folder in tests/kernel/*/; do
    scenario "${folder%/}"
done
count docs/KERNEL.md "$(strays)"

finish
