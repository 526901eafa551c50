#!/bin/bash
# Looks at the texts that the tests of crates/test_rows share with the cases of tests/rows/: a
# crate's tests can read no file, so each such text stands in its source, too, and has to be that
# of the row. The list below names each text of these sources that is a bundle, a report or a list
# of events. No two rows may ask the same of one bundle, either. One line for each case that fails,
# and at the end 'N passed, M failed'.
cd "$(dirname "$0")/.." || exit 1
. tests/cases.sh
sources=crates/test_rows/src/tests

# shared TEXT: the lines of the text NAME of a source, written FILE:NAME
shared() {
    sed -n "/const ${1#*:}: &\[u8\] = b\"\\\\\$/,/\";\$/p" "$sources/${1%:*}.rt" | sed '1d; s/\\n\\$//; s/\\n";$//; /^";$/d'
}

# events TEXT: the lines of the list of events NAME of a source, as a history has them
events() {
    sed -n "/const ${1#*:}: \[Event; [0-9]*\] = \[\$/,/^\];\$/p" "$sources/${1%:*}.rt" |
        sed -nE 's/^ *Event::([A-Z][a-z]*)(\(([0-9]+)\))?,$/\L\1 \3/p' | sed 's/ $//'
}

# kept FILE: a row's bundle or output before its history, or the events of its history
kept() {
    case $1 in
        */history) sed '1,/^== history/d' "tests/rows/${1%/*}/bundle" ;;
        *) sed '/^== history/,$d' "tests/rows/$1" ;;
    esac
}

# differs TEXT FILE: says where a source's text isn't that of a row
differs() {
    case $2 in
        */history) events "$1" > "$room/text" ;;
        *) shared "$1" > "$room/text" ;;
    esac
    if [ ! -s "$room/text" ]; then
        echo "there is no such text in $sources/${1%:*}.rt"
    elif ! kept "$2" | cmp -s - "$room/text"; then
        kept "$2" | diff - "$room/text" | grep '^[<>]' | head -n 2 | tr '\n' ' '
        echo "in tests/rows/$2 and in the source"
    fi
}

# texts: all texts of the sources, as FILE:NAME
texts() {
    grep -oE 'const [A-Z_]+: (&\[u8\] = b"\\|\[Event; [0-9]+\])' "$sources"/*.rt | sed -E 's/.*\/(.*)\.rt:const ([A-Z_]+):.*/\1:\2/'
}

# asked: the rows whose words and bundle another row has, too
asked() {
    for folder in tests/rows/*/; do
        echo "$(cat "$folder/words" "$folder/bundle" | sha256sum | cut -c 1-64) $(basename "$folder")"
    done | sort | uniq -w 64 -D | cut -c 66-
}

# a text and the row's file that has it, or `none` where the text's target is one of the tests'
# own, which no bundle names
while read -r text file; do
    echo "$text" >> "$room/named"
    [ "$file" = none ] || count "$text" "$(differs "$text" "$file" 2>&1)"
done << END
again:TWO_PAGES linear_over_two_pages/bundle
again:TWO_PAGES_REPORT linear_over_two_pages/stdout
faults:BAD_BLOCK dust_bad_block/bundle
faults:BAD_BLOCK_REPORT dust_bad_block/stdout
laboratory:ONE_LOG linear_write_and_read_audited/bundle
laboratory:ONE_LOG_EVENTS linear_write_and_read_audited/history
laboratory:ONE_LOG_REPORT linear_write_and_read_audited/stdout
laboratory:BLOCKS none
laboratory:BLOCKS_EVENTS none
listed:BAD_BLOCK dust_bad_block/bundle
listed:HELD delay_released_by_a_suspend_of_two_lines/bundle
listed:RANDOM_BYTE flakey_random_byte_each_time/bundle
prompt:DUE_BEFORE_OUTAGE prompt_write_due_before_an_outage/bundle
prompt:KEPT prompt_write_due_before_an_outage/stdout
threads:NO_LINES log_of_its_header_alone/bundle
threads:THREE_LOGS three_logs_audited/bundle
END

for text in $(texts); do
    count "$text" "$(grep -qxF "$text" "$room/named" || echo "the list above doesn't name it: it is a row's file, or none")"
done

count rows "$(asked | tr '\n' ' ' | sed 's/..*/these ask the same of one bundle: &/')"

finish
