#!/bin/bash
# Asks what a tester is told on standard error of a bundle that is refused: the line that stopped
# it, what is wrong there, and what to write. It then does what it is told, as often as it is told
# something, and the bundle has to be accepted. One line for each case that fails, and at the end
# 'N passed, M failed'. It wants the proved program.
#
# A case is NAME | PART | LINES | the refusal | mended, told if no one line mends it, or asked if
# several may | a phrase that is told. A ` ; ` stands for a line break and \xHH for a byte. The
# LINES take the place of one PART of the plain input: a write and a read through the linear device
# m, which has the table t; `use` gives the log's lines from line 4 on, without their file word,
# `log` the whole log, and `bundle` the whole input. `audit` gives the whole input too, and is run
# by `dmlab audit`. Behind these stand words of the program that aren't taken: NAME | WORDS | a tip.
cd "$(dirname "$0")/.." || exit 1
. tests/cases.sh
needs_program
m=/dev/mapper/m
header='fio version 2 iolog'

# bundle_of PART LINES: writes the input to the file bundle
bundle_of() {
    local table='0 8 linear /dev/ram0 0' script='ram 0 8 ; create m t ; replay'
    local log="$header ; $m add ; $m open" use="write 0 512 ; read 0 512 ; close"
    case "$1" in
        bundle | audit) ;;
        *) local "$1=$2" ;;
    esac
    [ "$1" = log ] || log+=" ; $m ${use// ; / ; $m }"
    local bundle="== table t ; $table ; == script ; $script ; == log a ; $log"
    [[ "$1" != @(bundle|audit) ]] || bundle=$2
    in_lines "$bundle" > "$room/bundle"
}

# shown: a line as standard error shows it, its first 200 bytes, and a byte that is no text by its
# number
shown() {
    perl -pe 's/^(.{200}).+/$1../; s/([^\t\n\x20-\x7e])/sprintf("\\x%02X", ord($1))/ge'
}

# place_is_right: the first of two lines that are told names the line of the bundle that it shows,
# and where the refusal is of a part's line, this one
place_is_right() {
    local told number part line
    [ "$(wc -l < "$room/stderr")" = 2 ] || return 1
    told=$(head -n 1 "$room/stderr")
    [[ "$told" =~ ^dmlab:\ line\ ([0-9]+)\ of\ the\ bundle(,\ ([^:]*)\ line\ ([0-9]+))?:\ (.*)$ ]] || return 1
    number=${BASH_REMATCH[1]} part=${BASH_REMATCH[3]:-bundle} line=${BASH_REMATCH[4]:-${BASH_REMATCH[1]}}
    [ "${BASH_REMATCH[5]}" = "$(sed -n "${number}p" "$room/bundle" | shown)" ] || return 1
    [[ "$(cat "$room/stdout")" == @("refused $part $line "*|"not a run at "*) ]] || return 1
    [ "$part" = bundle ] || [ "$(sed -n "$((number - line))p" "$room/bundle")" = "== $part" ]
}

# mend [LINE]: does what the line says, or the last one of standard error; fails where it says
# nothing to write or to leave blank
mend() {
    local told number line
    told=${1-$(tail -n 1 "$room/stderr")}
    if [[ "$told" =~ \.\ Leave\ line\ ([0-9]+)\ blank$ ]]; then
        sed -i "${BASH_REMATCH[1]}s/.*//" "$room/bundle"
        return
    fi
    [[ "$told" =~ \.\ Write\ (on|before)\ line\ ([0-9]+):\ (.*)$ ]] || return 1
    number=${BASH_REMATCH[2]} line=${BASH_REMATCH[3]}
    {
        head -n $((number - 1)) "$room/bundle"
        printf '%s\n' "$line"
        [ "${BASH_REMATCH[1]}" = before ] && sed -n "${number}p" "$room/bundle"
        tail -n +$((number + 1)) "$room/bundle"
    } > "$room/mended"
    mv "$room/mended" "$room/bundle"
}

# comes_right: does what it is told up to 30 times, until the bundle is accepted
comes_right() {
    for _ in {1..30}; do
        mend || return 1
        if "$dmlab" check < "$room/bundle" > "$room/stdout" 2> "$room/stderr"; then
            return 0
        fi
    done
    return 1
}

# fails WHY: counts a case that failed
fails() {
    count "$name" "$1: $(cat "$room/stdout" "$room/stderr" | tr '\n' '~')"
}

# case_of PART LINES REFUSED END PHRASE: runs a case, and counts it
case_of() {
    local command=check wanted="refused $3"
    [ "$1" = audit ] && command=audit
    [[ "$3" != @(not a run*|unfinished*) ]] || wanted=$3
    bundle_of "$1" "$2"
    "$dmlab" "$command" < "$room/bundle" > "$room/stdout" 2> "$room/stderr"
    [ "$?" = 1 ] || { fails "another status"; return; }
    cmp -s "$room/stdout" <(echo "$wanted") || { fails "not $wanted"; return; }
    grep -qF -- "$5" <(tail -n 1 "$room/stderr") || { fails "it doesn't say $5"; return; }
    if [[ "$3" != *\ 0\ * && "$3" != unfinished* ]]; then
        place_is_right || { fails "the place is wrong"; return; }
    else
        [ "$(wc -l < "$room/stderr")" = 1 ] || { fails "a place is told"; return; }
    fi
    if [ "$4" = mended ]; then
        comes_right || { fails "it doesn't mend"; return; }
    elif mend; then
        fails "one line is said to mend it"
        return
    elif [ "$4" = asked ] && ! grep -qF '. Which is meant? ' "$room/stderr"; then
        fails "no question is asked"
        return
    fi
    count "$name" ''
}

# all_of BUNDLE REFUSED PHRASE: asks for all parts of the bundle that can't be read, does all that it
# is told, from the last one up, and asks again: the bundle has to be accepted. The refusals stand in
# their order, and the phrase is told
all_of() {
    local place
    in_lines "$1" > "$room/bundle"
    "$dmlab" check --all < "$room/bundle" > "$room/stdout" 2> "$room/stderr"
    [ "$?" = 1 ] || { fails "another status"; return; }
    cmp -s "$room/stdout" <(in_lines "$2" | sed 's/^/refused /') || { fails "not $2"; return; }
    grep -qF -- "$3" "$room/stderr" || { fails "it doesn't say $3"; return; }
    mapfile -t told < "$room/stderr"
    [ "${#told[@]}" = $((2 * $(wc -l < "$room/stdout"))) ] || { fails "not two lines for each"; return; }
    for ((place = ${#told[@]} - 1; place > 0; place -= 2)); do
        mend "${told[place]}" || { fails "nothing is told to write"; return; }
    done
    "$dmlab" check --all < "$room/bundle" > "$room/stdout" 2> "$room/stderr" || { fails "it doesn't mend"; return; }
    count "$name" ''
}

while IFS='|' read -r name bundle refused phrase; do
    all_of "$bundle" "$refused" "$phrase"
done < <(sed -E '/^# /d; s/ *\| */|/g' << 'END'
# ---- all parts in one round: NAME | BUNDLE | the refusals | a phrase that is told
a_script_and_a_log        | == table t ; 0 8 zero ; == script ; craete m t ; replay ; == log a ; fio version 2 iolog ; /dev/mapper/m add ; /dev/mapper/m open ; /dev/mapper/m wirte 0 512 | script 1 BadLine ; log a 4 BadLine | Write on line 10: /dev/mapper/m write 0 512
a_table_and_a_history     | == table t ; 0 8 lienar /dev/ram0 0 ; == script ; ram 0 8 ; create m t ; replay ; == history ; contrl ; control | table t 1 Unknown ; history 1 BadLine | Write on line 8: control
a_rule_and_a_history      | == table t ; 0 8 zero ; == script ; create wal t ; status wla ; replay ; == history ; contrl | script 2 V1 ; history 1 BadLine | Write on line 8: control
END
)

while IFS='|' read -r name part lines refused end phrase; do
    case_of "$part" "$lines" "$refused" "$end" "$phrase"
done < <(sed -E '/^# /d; s/ *\| */|/g' << 'END'
# ---- the bundle
carriage_returns          | bundle | == script\x0D ; replay\x0D                    | bundle 1 NotText | mended | carriage return
byte_order_mark           | bundle | \xEF\xBB\xBF== script ; replay                | bundle 1 NotText | mended | byte order mark
letter_past_ascii         | bundle | == script ; # f\xC3\xBCr ; replay             | bundle 2 NotText | told   | ASCII
letter_in_a_table         | table | 0 8 linear /dev/ram0 0 \xC3\xA9               | bundle 2 NotText | told   | ASCII
sixteen_bits_a_letter     | bundle | \xFF\xFE=\x00=\x00                            | bundle 1 NotText | told  | ASCII
heading_without_blank     | bundle | ==table t ; 0 8 zero ; == script ; replay     | bundle 1 BadHeading | mended | == table t
heading_in_the_plural     | bundle | == tables t ; 0 8 zero ; == script ; replay   | bundle 1 BadHeading | mended | == table t
heading_in_capitals       | bundle | == SCRIPT ; replay                           | bundle 1 BadHeading | mended | == script
heading_of_three_signs    | bundle | === script ; replay                          | bundle 1 BadHeading | mended | == script
heading_that_is_closed    | bundle | == script == ; replay                        | bundle 1 BadHeading | mended | == script
heading_with_a_word_more  | bundle | == script now ; replay                       | bundle 1 BadHeading | mended | == script
heading_without_a_name    | bundle | == script ; replay ; == log ; fio version 2 iolog | bundle 3 BadHeading | mended | == log a
heading_with_a_path       | bundle | == table /dev/t ; 0 8 zero ; == script ; replay | bundle 1 BadHeading | mended | == table t
line_before_heading       | bundle | my first bundle ; == script ; replay         | bundle 1 Stray   | mended | # my first bundle
indented_comment          | bundle | \x20# x ; == script ; replay                 | bundle 1 Stray   | mended | # x
indented_heading          | bundle | \x20== script ; replay                       | bundle 1 Stray   | mended | == script
no_script                 | bundle | == table t ; 0 8 zero                        | bundle 0 NoScript | mended | == script
blank_line_alone          | bundle |                                              | bundle 0 NoScript | mended | == script
a_table_twice             | bundle | == table t ; 0 8 zero ; == table t ; 0 8 zero ; == script ; replay | bundle 3 Twice | told | lines 3 to 4 are the part of line 1 once more: leave one of the two out, or give it another name
# ---- tables
sectors_with_s            | table | 0 8s linear /dev/ram0 0                       | table t 1 Number | mended | 0 8 linear /dev/ram0 0
sectors_with_k            | table | 0 4k linear /dev/ram0 0                       | table t 1 Number | mended | 0 8 linear /dev/ram0 0
sectors_with_a_capital_m  | bundle | == table t ; 0 1M linear /dev/ram0 0 ; == script ; ram 0 1M ; create m t ; replay | table t 1 Number | mended | 0 2048 linear /dev/ram0 0
offset_with_s             | table | 0 8 linear /dev/ram0 0s                       | table t 1 Number | mended | 0 8 linear /dev/ram0 0
hexadecimal_length        | table | 0 0x8 linear /dev/ram0 0                      | table t 1 Number | mended | 0 8 linear /dev/ram0 0
hexadecimal_offset        | table | 0 4 linear /dev/ram0 0x4                      | table t 1 Number | mended | 0 4 linear /dev/ram0 4
signed_offset             | table | 0 4 linear /dev/ram0 +4                       | table t 1 Number | mended | 0 4 linear /dev/ram0 4
negative_offset           | table | 0 8 linear /dev/ram0 -1                       | table t 1 Number | told   | decimal
offset_with_a_comma       | bundle | == table t ; 0 8 linear /dev/ram0 4,096 ; == script ; ram 0 8192 ; create m t ; replay | table t 1 Number | mended | Write on line 2: 0 8 linear /dev/ram0 4096
name_before_the_line      | table | t: 0 8 linear /dev/ram0 0                     | table t 1 Number | mended | 0 8 linear /dev/ram0 0
name_and_two_numbers      | table | t: 0 8 linear 1:0 0                           | table t 1 Number | mended | 0 8 linear 1:0 0
comment_behind_a_line     | table | 0 8 linear /dev/ram0 0 # disk                 | table t 1 Args   | mended | 0 8 linear /dev/ram0 0
comment_without_a_blank   | table | 0 8 linear /dev/ram0 0 #disk                  | table t 1 Args   | mended | 0 8 linear /dev/ram0 0
comment_behind_flakey     | table | 0 8 flakey /dev/ram0 0 5 1 # down 1 second    | table t 1 Number | mended | 0 8 flakey /dev/ram0 0 5 1
comment_for_an_offset     | table | 0 8 linear /dev/ram0 # disk                   | table t 1 Args   | mended | 0 8 linear /dev/ram0 0
comment_behind_slashes    | table | 0 8 linear /dev/ram0 0 // disk | table t 1 Args | mended | `//` or `/* */` behind words is no comment; a comment has a line of its own, whose first byte is `#`
comment_between_stars     | table | 0 8 flakey /dev/ram0 0 0 1 1 drop_writes /* always down */ | table t 1 Args | mended | Write on line 2: 0 8 flakey /dev/ram0 0 0 1 1 drop_writes
comment_behind_times      | table | 0 8 flakey /dev/ram0 0 0 1 // always down | table t 1 Number | mended | dmlab: `//` or `/* */` behind words is no comment
comment_behind_a_delay    | table | 0 8 delay /dev/ram0 0 5 /* slow */ | table t 1 Number | mended | Write on line 2: 0 8 delay /dev/ram0 0 5
all_of_them_at_once       | table | t: 0 8s Linear /dev/ram0 0x0 # disk           | table t 1 Number | mended | 0 8 linear /dev/ram0 0
linear_without_offset     | table | 0 8 linear /dev/ram0                          | table t 1 Args   | mended | 0 8 linear /dev/ram0 0
linear_with_a_word_more   | table | 0 8 linear /dev/ram0 0 1                      | table t 1 Args   | mended | 0 8 linear /dev/ram0 0
zero_with_a_device        | table | 0 8 zero /dev/ram0 0                          | table t 1 Args   | mended | 0 8 zero
error_with_a_device       | table | 0 8 error /dev/ram0 0                         | table t 1 Args   | mended | 0 8 error
dust_without_a_block      | table | 0 8 dust /dev/ram0 0                          | table t 1 Args   | mended | 0 8 dust /dev/ram0 0 512
dust_with_a_device_alone  | table | 0 8 dust /dev/ram0                            | table t 1 Args   | mended | 0 8 dust /dev/ram0 0 512
delay_without_a_delay     | table | 0 8 delay /dev/ram0 0                         | table t 1 Args   | mended | 0 8 delay /dev/ram0 0
delay_in_milliseconds     | table | 0 8 delay /dev/ram0 0 500ms                   | table t 1 Number | mended | 0 8 delay /dev/ram0 0 500
delay_in_seconds          | table | 0 8 delay /dev/ram0 0 2s                      | table t 1 Number | mended | 0 8 delay /dev/ram0 0 2000
delay_of_two_hours        | table | 0 8 delay /dev/ram0 0 7200000 | table t 1 TooLong | told | word 6 of the line stands for 7200000 milliseconds, 3600000 more than the limit: a delay is at most 3600000
delay_in_microseconds     | table | 0 8 delay /dev/ram0 0 5000000 | table t 1 TooLong | mended | which are an hour; in microseconds that are 5000 milliseconds. Write on line 2: 0 8 delay /dev/ram0 0 5000
block_in_kibibytes        | table | 0 8 dust /dev/ram0 0 1k                       | table t 1 Number | mended | 0 8 dust /dev/ram0 0 1024
block_of_1000             | table | 0 8 dust /dev/ram0 0 1000 | table t 1 BlockSize | mended | 0 8 dust /dev/ram0 0 1024
block_in_sectors          | table | 0 8 dust /dev/ram0 0 8 | table t 1 BlockSize | mended | 0 8 dust /dev/ram0 0 4096
feature_without_its_count | table | 0 8 flakey /dev/ram0 0 5 1 drop_writes | table t 1 Number | mended | with 5 seconds of UP or of DOWN for example: `0 8 flakey /dev/ram0 0 5 5 1 drop_writes`. Write on line 2: 0 8 flakey /dev/ram0 0 5 1 1 drop_writes
values_without_a_count    | table | 0 8 flakey /dev/ram0 0 5 1 corrupt_bio_byte 1 r 0 0 | table t 1 Number | mended | 5 1 5 corrupt_bio_byte 1 r 0 0
features_counted_as_two   | table | 0 8 flakey /dev/ram0 0 5 1 2 drop_writes      | table t 1 Args   | mended | 5 1 1 drop_writes
a_count_of_no_features    | table | 0 8 flakey /dev/ram0 0 5 1 1                  | table t 1 Args   | mended | 5 1 0
features_counted_as_one   | table | 0 8 flakey /dev/ram0 0 5 1 1 corrupt_bio_byte 1 r 0 0 | table t 1 Args | mended | 5 1 5 corrupt_bio_byte 1 r 0 0
interval_with_s           | table | 0 8 flakey /dev/ram0 0 5s 1s                  | table t 1 Number | mended | 0 8 flakey /dev/ram0 0 5 1
flakey_without_intervals  | table | 0 8 flakey /dev/ram0 0                        | table t 1 Args   | mended | 0 8 flakey /dev/ram0 0
flakey_without_an_offset  | table | 0 8 flakey /dev/ram0 5 5 1 drop_writes | table t 1 Number | mended | Write on line 2: 0 8 flakey /dev/ram0 0 5 5 1 drop_writes
dust_without_an_offset    | table | 0 8 dust /dev/ram0 4096 | table t 1 Args | mended | Write on line 2: 0 8 dust /dev/ram0 0 4096
bad_blocks_in_a_table     | table | 0 8 dust /dev/ram0 0 512 4 5 | table t 1 Args | mended | `message m 0 addbadblock 4` in the script, behind the create, adds block 4 as one, and each other one has a message of its own
words_behind_a_block      | table | 0 8 dust /dev/ram0 0 512 x | table t 1 Args | mended | it is `START LENGTH dust DEVICE OFFSET BLOCK`
no_interval               | table | 0 8 flakey /dev/ram0 0 0 0 | table t 1 Interval | asked | UP and DOWN
feature_of_another_name   | table | 0 8 flakey /dev/ram0 0 5 1 1 drop_reads | table t 1 Feature | mended | reads can't be dropped, `error_reads` lets them fail
features_that_conflict    | table | 0 8 flakey /dev/ram0 0 5 1 2 drop_writes error_writes | table t 1 Conflict | told | go together
value_past_its_range      | table | 0 8 flakey /dev/ram0 0 5 1 5 corrupt_bio_byte 1 r 256 0 | table t 1 Value | told | 0 to 255
type_in_capitals          | table | 0 8 Linear /dev/ram0 0                        | table t 1 Unknown | mended | 0 8 linear /dev/ram0 0
type_that_is_not_there    | table | 0 8 striped 2 16 /dev/ram0 0                  | table t 1 Unknown | told  | linear, zero, error, flakey, dust and delay
first_start_of_1          | table | 1 8 linear /dev/ram0 0                        | table t 1 Gap    | mended | 0 8 linear /dev/ram0 0
gap_between_lines         | table | 0 4 linear /dev/ram0 0 ; # x ; 8 4 zero       | table t 3 Gap    | asked | On line 4: `4 4 zero`? On line 2: `0 8 linear /dev/ram0 0`?
lines_that_overlap        | table | 0 4 linear /dev/ram0 0 ; 3 4 zero             | table t 2 Gap    | asked | On line 3: `4 4 zero`? On line 2: `0 3 linear /dev/ram0 0`?
line_past_200_bytes       | table | 0 8 linear /dev/ram0 0000000000000000000000000000000000000000000000000000000000000000000000000000000000000000000000000000000000000000000000000000000000000000000000000000000000000000000000000000000000000000000000000000000000000000000 | table t 1 Number | told | decimal
no_length                 | table | 0 0 linear /dev/ram0 0                        | table t 1 ZeroLength | told | at least one sector
no_line                   | table | # no line yet                                 | table t 0 Empty  | told   | START LENGTH TYPE
# ---- scripts
dmsetup_before_a_command  | script | ram 0 8 ; dmsetup create m t ; replay        | script 2 BadLine | mended | create m t
sudo_before_it            | script | ram 0 8 ; sudo dmsetup create m t ; replay   | script 2 BadLine | mended | create m t
dmsetup_and_a_path        | script | ram 0 8 ; create m t ; dmsetup suspend /dev/mapper/m ; dmsetup resume m ; replay | script 3 BadLine | mended | suspend m
created_by_its_path       | script | ram 0 8 ; create /dev/mapper/m t ; replay      | script 2 BadLine | mended | create m t
comment_behind_a_command  | script | ram 0 8 # disk ; create m t ; replay         | script 1 BadLine | mended | ram 0 8
create_without_a_table    | script | ram 0 8 ; create m ; replay                  | script 2 BadLine | mended | create m t
command_in_capitals       | script | ram 0 8 ; Create m t ; replay                | script 2 BadLine | mended | create m t
disk_by_its_path          | script | ram /dev/ram0 8 ; create m t ; replay         | script 1 BadLine | mended | ram 0 8
disk_in_kibibytes         | script | ram 0 4k ; create m t ; replay                | script 1 BadLine | mended | ram 0 8
disk_with_sectors         | script | ram 0 8s ; create m t ; replay                | script 1 BadLine | mended | ram 0 8
disk_in_mebibytes         | script | ram 0 1M ; create m t ; replay                | script 1 BadLine | mended | ram 0 2048
disk_past_the_limit       | script | ram 0 8 ; ram 256 8 ; create m t ; replay     | script 2 BadLine | told | word 2 of the line stands for 256, 1 more than the limit: the number of a disk is 0 to 255
disk_that_is_too_big      | script | ram 0 131072 ; create m t ; replay            | script 1 BadLine | told | word 3 of the line stands for 131072 sectors, 65536 more than the limit
disks_that_are_too_big    | script | ram 0 65536 ; ram 1 1 ; create m t ; replay   | limits 0 V16     | told   | 65537 sectors on its memory disks, 1 more
disk_behind_a_command     | script | ram 0 8 ; create m t ; ram 1 8 ; replay       | script 3 BadLine | told   | before all other commands
device_by_its_path        | script | ram 0 8 ; create m t ; suspend /dev/mapper/m ; resume m ; replay | script 3 BadLine | mended | suspend m
suspend_with_an_option    | script | ram 0 8 ; create m t ; suspend m --nolockfs ; resume m ; replay | script 3 BadLine | mended | suspend m
table_in_the_command      | script | ram 0 8 ; create m --table zero ; replay      | script 2 BadLine | told   | == table TABLE
sleep_in_seconds          | script | ram 0 8 ; create m t ; replay ; sleep 1s      | script 4 BadLine | mended | sleep 1000000
sleep_in_milliseconds     | script | ram 0 8 ; create m t ; replay ; sleep 250ms   | script 4 BadLine | mended | sleep 250000
sleep_in_minutes          | script | ram 0 8 ; create m t ; replay ; sleep 2m      | script 4 BadLine | mended | sleep 120000000
sleep_with_a_fraction     | script | ram 0 8 ; create m t ; replay ; sleep 0.5     | script 4 BadLine | mended | Write on line 7: sleep 500000
sleep_in_hexadecimal      | script | ram 0 8 ; create m t ; replay ; sleep 0x10    | script 4 BadLine | mended | sleep 16
sleep_of_two_hours        | script | ram 0 8 ; create m t ; replay ; sleep 7200000000 | script 4 BadLine | told | word 2 of the line stands for 7200000000 microseconds, 3600000000 more than the limit: a `sleep` is at most 3600000000
message_without_a_sector  | bundle | == table t ; 0 8 dust /dev/ram0 0 512 ; == script ; ram 0 8 ; create m t ; message m enable ; replay | script 3 BadLine | mended | message m 0 enable
message_by_dmsetup        | bundle | == table t ; 0 8 dust /dev/ram0 0 512 ; == script ; ram 0 8 ; create m t ; dmsetup message /dev/mapper/m addbadblock 3 ; replay | script 3 BadLine | mended | message m 0 addbadblock 3
message_that_none_takes   | script | ram 0 8 ; create m t ; message m 0 enable ; replay | script 3 V9   | told   | dust
wait_for_a_name           | script | ram 0 8 ; create m t ; replay ; wait m        | script 4 BadLine | mended | Write on line 7: wait
wait_for_a_time           | script | ram 0 8 ; create m t ; replay ; wait 1000     | script 4 BadLine | asked | On line 7: `sleep 1000000`? On line 7: `sleep 1000`? On line 7: `wait`?
replay_of_a_log           | script | ram 0 8 ; create m t ; replay a               | script 3 BadLine | mended | Write on line 6: replay
command_that_is_not_there | script | ram 0 8 ; create m t ; replay ; start m       | script 4 BadLine | told   | create, load
no_replay                 | script | ram 0 8 ; create m t                          | script 0 V10     | mended | replay
replay_twice              | script | ram 0 8 ; create m t ; replay ; replay | script 4 V10 | mended | Leave line 7 blank
name_that_is_not_there    | script | ram 0 8 ; create m t ; suspend q ; replay     | script 3 V1      | told   | stands
name_in_use               | script | ram 0 8 ; create m t ; create m t ; replay    | script 3 V2      | mended | by line 5: take another one. Leave line 6 blank
disk_twice                | script | ram 0 8 ; ram 0 8 ; create m t ; replay       | script 2 V2      | mended | by line 4: take another one. Leave line 5 blank
resume_of_nothing         | script | ram 0 8 ; create m t ; create n --notable ; resume n ; replay | script 4 V3 | mended | Write before line 7: load n t
disk_that_is_too_small    | script | ram 0 7 ; create m t ; replay                 | script 2 V4      | asked | table t line 1, `0 8 linear /dev/ram0 0`, reaches up to sector 8 of /dev/ram0, which has 7 sectors
table_that_is_too_short   | bundle | == table t ; 0 8 zero ; == table u ; 0 4 zero ; == script ; create m t ; load m u ; replay | script 2 V5 | told | at least as long
lower_device_suspended    | bundle | == table low ; 0 8 zero ; == table t ; 0 8 linear /dev/mapper/low 0 ; == script ; create low low ; create m t ; suspend low ; suspend m ; replay | script 4 V6 | told | line 8 suspends low, on which m is laid, and the upper device goes first: exchange that line and this one
device_on_itself          | bundle | == table low ; 0 8 zero ; == table t ; 0 8 linear /dev/mapper/low 0 ; == table u ; 0 8 linear /dev/mapper/m 0 ; == script ; create low low ; create m t ; load low u ; replay | script 3 V11 | told | stand on itself
disk_of_the_host          | table | 0 8 linear /dev/sdb 0                          | script 2 V1      | mended | line 2 of the bundle, table t line 1, `0 8 linear /dev/sdb 0`, names /dev/sdb: a bundle has no such device; its disks are /dev/ramN, made by `ram N SECTORS`, its mapped devices /dev/mapper/NAME, made by `create NAME TABLE`; the disks of this bundle are /dev/ram0. Write on line 2: 0 8 linear /dev/ram0 0
disk_by_its_numbers       | table | 0 8 linear 8:16 0                              | script 2 V1      | mended | Write on line 2: 0 8 linear /dev/ram0 0
disk_by_its_bare_name     | table | 0 8 linear sdb 0                               | script 2 V1      | mended | Write on line 2: 0 8 linear /dev/ram0 0
disk_on_the_second_line   | table | 0 4 linear /dev/ram0 0 ; 4 4 linear /dev/sdb 0 | script 2 V1      | told   | line 3 of the bundle, table t line 2
# ---- logs
log_of_version_3          | log | fio version 3 iolog ; /dev/mapper/m add ; /dev/mapper/m open | log a 1 Header | mended | fio version 2 iolog
times_of_version_3        | log | fio version 3 iolog ; 101 /dev/mapper/m add ; 102 /dev/mapper/m open ; 103 /dev/mapper/m read 0 512 | log a 1 Header | told | `tools/iolog3to2` makes it of version 3, as `tools/iolog3to2 DEVICE < LOG`
no_header                 | log | /dev/mapper/m add                                | log a 1 Header   | mended | fio version 2 iolog
fsync                     | use | write 0 512 ; fsync                              | log a 5 BadLine  | mended | /dev/mapper/m sync 0 0
fdatasync                 | use | write 0 512 ; fdatasync 0 0                      | log a 5 BadLine  | mended | /dev/mapper/m datasync 0 0
discard                   | use | discard 0 512                                    | log a 4 BadLine  | mended | /dev/mapper/m trim 0 512
action_in_capitals        | use | READ 0 512                                       | log a 4 BadLine  | mended | /dev/mapper/m read 0 512
no_offset_and_no_length   | use | write                                            | log a 4 BadLine  | told | OFFSET and LENGTH in bytes
no_length_of_a_write      | use | write 0                                          | log a 4 BadLine  | told | OFFSET and LENGTH in bytes
sync_without_numbers      | use | write 0 512 ; sync                               | log a 5 BadLine  | mended | /dev/mapper/m sync 0 0
wait_without_a_length     | use | wait 1000                                        | log a 4 BadLine  | mended | /dev/mapper/m wait 1000 0
wait_in_milliseconds      | use | wait 1ms 0                                       | log a 4 BadLine  | mended | /dev/mapper/m wait 1000 0
wait_in_seconds           | use | wait 1s 0                                        | log a 4 BadLine  | mended | /dev/mapper/m wait 1000000 0
wait_of_two_hours         | use | wait 7200000000 0                                | log a 4 BadLine  | told   | word 3 of the line stands for 7200000000 microseconds, 3600000000 more than the limit
length_in_kibibytes       | use | write 0 4k                                       | log a 4 BadLine  | mended | /dev/mapper/m write 0 4096
length_in_sectors         | use | write 0 8s                                       | log a 4 BadLine  | mended | /dev/mapper/m write 0 4096
length_in_bytes           | use | write 0 512b                                     | log a 4 BadLine  | mended | /dev/mapper/m write 0 512
length_of_letters         | use | write 0 all                                      | log a 4 BadLine  | told   | LENGTH
offset_below_zero         | use | read -512 512                                    | log a 4 BadLine  | told   | OFFSET
action_of_one_letter      | use | R 0 512                                          | log a 4 BadLine  | mended | /dev/mapper/m read 0 512
length_in_hexadecimal     | use | write 0 0x200                                    | log a 4 BadLine  | mended | /dev/mapper/m write 0 512
comment_in_a_log          | log | fio version 2 iolog ; # a file ; /dev/mapper/m add ; /dev/mapper/m open | log a 2 BadLine | mended | Leave line 9 blank
comment_behind_a_use      | use | write 0 512 # first                              | log a 4 BadLine  | mended | /dev/mapper/m write 0 512
time_before_a_use         | log | fio version 2 iolog ; 7 /dev/mapper/m add ; /dev/mapper/m open | log a 2 BadLine | mended | `tools/iolog3to2` makes it of version 3
offset_off_the_sectors    | use | read 700 512                                     | log a 4 Unaligned | told | multiples of 512: a sector has 512
length_off_the_sectors    | use | read 0 700                                       | log a 4 Unaligned | mended | a sector has 512 bytes, so 700 bytes take a LENGTH of 1024. Write on line 11: /dev/mapper/m read 0 1024
length_below_a_sector     | use | write 512 120                                    | log a 4 Unaligned | mended | so 120 bytes take a LENGTH of 512. Write on line 11: /dev/mapper/m write 512 512
length_of_nothing         | use | read 0 0                                         | log a 4 EmptyRange | told | at least 512 bytes
length_past_a_mebibyte    | bundle | == table t ; 0 4096 linear /dev/ram0 0 ; == script ; ram 0 4096 ; create m t ; replay ; == log a ; fio version 2 iolog ; /dev/mapper/m add ; /dev/mapper/m open ; /dev/mapper/m read 0 2097152 | log a 4 TooLong | told | part it into several
length_of_two_mebibytes   | use | write 512 2097152                                | log a 4 TooLong  | told | part it into several
file_of_the_host          | log | fio version 2 iolog ; /dev/sdb add ; /dev/sdb open | log a 2 V12    | told   | no device of this name stands
disk_that_does_not_stand  | log | fio version 2 iolog ; /dev/ram5 add ; /dev/ram5 open | log a 2 V12  | mended | /dev/ram0 add
open_without_an_add       | log | fio version 2 iolog ; /dev/mapper/m open         | log a 2 V13      | mended | /dev/mapper/m add
use_without_an_open       | log | fio version 2 iolog ; /dev/mapper/m add ; /dev/mapper/m sync 0 0 | log a 3 V13 | mended | /dev/mapper/m open
second_open               | use | open                                             | log a 4 V13      | mended | Leave line 11 blank
second_open_by_number     | log | fio version 2 iolog ; /dev/dm-0 add ; /dev/dm-0 open ; /dev/mapper/m open | log a 4 V13 | mended | Leave line 11 blank
close_of_a_closed_file    | use | close ; close                                    | log a 5 V13      | mended | Leave line 12 blank
range_past_the_end        | use | read 4096 512                                    | log a 4 V14      | told   | smaller offset
# ---- histories
no_history                | audit | == script ; replay                            | history 0 Missing | told | sim --history
event_without_a_number    | audit | == script ; replay ; == history ; serve       | history 1 BadLine | told | one number
event_of_another_name     | audit | == script ; replay ; == history ; # x ; step   | history 2 BadLine | told | control
event_that_may_not_come   | audit | == script ; replay ; == history ; # x ; control ; control | not a run at 2 | told | may not come
history_that_ends_early   | audit | == script ; replay ; == history ; # none      | unfinished at 1  | told   | before all is done
# ---- what a second tester tried
empty_log_before_a_log    | bundle | == script ; create m --notable ; replay ; == log a ; == log b ; fio version 2 iolog | log a 1 Header | told | the log a has no line: below its heading stand `fio version 2 iolog` and then what is done
empty_log_before_a_table  | bundle | == script ; create m t ; replay ; == log a ; == table t ; 0 8 zero | log a 1 Header | told | the log a has no line
empty_log_of_blanks       | bundle | == table t ; 0 8 linear /dev/ram0 0 ; == script ; ram 0 8 ; create m t ; replay ; == log a ;  ; == log b ; fio version 2 iolog | log a 1 Header | told | the log a has no line
file_behind_a_heading     | bundle | == table t ; 0 8 linear /dev/ram0 0 ; == script ; ram 0 8 ; create m t ; replay ; == log wal wal.iolog | bundle 7 BadHeading | told | a bundle reads no other file: write `== log wal`, and the lines of wal.iolog below it, or let `tools/bundle` make the bundle.
file_behind_a_sign        | bundle | == table t ; 0 8 linear /dev/ram0 0 ; == script ; ram 0 8 ; create m t ; replay ; == log wal < wal.iolog | bundle 7 BadHeading | told | the lines of wal.iolog below it
file_behind_a_colon       | bundle | == table t ; 0 8 linear /dev/ram0 0 ; == script ; ram 0 8 ; create m t ; replay ; == log wal: wal.iolog | bundle 7 BadHeading | told | write `== log wal`, and the lines of wal.iolog below it
file_above_its_lines      | bundle | == table t ; 0 8 linear /dev/ram0 0 ; == script ; ram 0 8 ; create m t ; replay ; == log wal wal.iolog ; fio version 2 iolog ; /dev/mapper/m add ; /dev/mapper/m open ; /dev/mapper/m close | bundle 7 BadHeading | mended | so wal.iolog isn't named there. Write on line 7: == log wal
file_for_a_name           | bundle | == table t ; 0 8 linear /dev/ram0 0 ; == script ; ram 0 8 ; create m t ; replay ; == log wal.iolog ; == log b ; fio version 2 iolog ; /dev/mapper/m add ; /dev/mapper/m open ; /dev/mapper/m close | log wal.iolog 1 Header | told | a bundle reads no other file: put the lines of wal.iolog below the heading
file_for_the_lines        | bundle | == table t ; 0 8 linear /dev/ram0 0 ; == script ; ram 0 8 ; create m t ; replay ; == log wal ; wal.iolog | log wal 1 Header | told | put the lines of wal.iolog below `== log wal` in the place of its name
script_without_heading    | bundle | ram 0 8 ; replay | bundle 1 Stray | mended | Write before line 1: == script
table_without_heading     | bundle | 0 8 zero ; == script ; create t t ; replay | bundle 1 Stray | mended | Write before line 1: == table t
log_without_heading       | bundle | fio version 2 iolog ; == script ; replay | bundle 1 Stray | mended | Write before line 1: == log a
use_above_all_headings    | bundle | /dev/mapper/m read 0 512 ; == table t ; 0 8 zero ; == script ; create m t ; replay ; == log a ; fio version 2 iolog ; /dev/mapper/m add ; /dev/mapper/m open ; /dev/mapper/m close | bundle 1 Stray | told | the line looks like one of a log: it belongs under the heading `== log a`, line 7, behind the `open` of its file
row_above_all_headings    | bundle | 0 8 zero ; == table t ; == script ; create m t ; replay | bundle 1 Stray | told | it belongs under the heading `== table t`, line 2.
command_above_headings    | bundle | ram 0 8 ; == script ; replay | bundle 1 Stray | told | the line looks like a command of the script: it belongs under the heading `== script`, line 2.
marks_above_all_headings  | bundle | ``` ; == script ; replay | bundle 1 Stray | mended | Leave line 1 blank
log_and_no_bundle         | bundle | fio version 2 iolog ; /dev/mapper/m add | bundle 1 Stray | told | this is a log of fio and no bundle: `tools/bundle` makes one of it
tables_and_no_bundle      | bundle | t: 0 8 linear 1:0 0 | bundle 1 Stray | told | these are lines of `dmsetup table` and no bundle: `tools/bundle --tables` makes one of them
heading_of_one_sign       | bundle | = table t ; 0 8 zero ; == script ; replay | bundle 1 Stray | mended | Write on line 1: == table t
file_without_its_folder   | bundle | == table t ; 0 8 zero ; == script ; create m t ; create n t ; replay ; == log a ; fio version 2 iolog ; n add | log a 2 V12 | mended | /dev/mapper/n add
uses_without_header       | log | /dev/mapper/m add ; /dev/mapper/m open ; /dev/mapper/m read 0 512 | log a 1 Header | mended | Write before line 8: fio version 2 iolog
remove_with_f             | script | ram 0 8 ; create m t ; replay ; wait ; remove -f m | script 5 BadLine | mended | remove m
tab_and_comment_at_flakey | table | 0 8 flakey /dev/ram0 0 5 1\t# x | table t 1 Number | mended | begins no comment
tab_and_comment           | table | 0 8 linear /dev/ram0 0\t# x | table t 1 Args | mended | begins no comment
sectors_in_bytes          | table | 0 4096b linear /dev/ram0 0 | table t 1 Number | mended | 0 8 linear /dev/ram0 0
sectors_with_kB           | table | 0 4kB linear /dev/ram0 0 | table t 1 Number | mended | 0 8 linear /dev/ram0 0
sectors_with_kiB          | table | 0 4kiB linear /dev/ram0 0 | table t 1 Number | mended | 0 8 linear /dev/ram0 0
length_with_kB            | use | write 0 4kB | log a 4 BadLine | mended | /dev/mapper/m write 0 4096
hexadecimal_in_capitals   | table | 0 0X8 linear /dev/ram0 0 | table t 1 Number | mended | 0 8 linear /dev/ram0 0
remove_with_force         | script | ram 0 8 ; create m t ; replay ; wait ; remove --force m | script 5 BadLine | mended | remove m
status_of_a_type          | script | ram 0 8 ; create m t ; replay ; status m --target linear | script 4 BadLine | mended | status m
wait_before_replay        | script | ram 0 8 ; create m t ; wait ; replay | script 3 V10 | told   | a `wait` waits for the logs, which start at the `replay`, line 7: move this line behind that one.
removed_too_early         | script | ram 0 8 ; create m t ; replay ; remove m | script 4 V8 | mended | Write before line 7: wait
tab_behind_a_time         | log | fio version 2 iolog ; 7\t/dev/mapper/m add ; /dev/mapper/m open | log a 2 BadLine | mended | `tools/iolog3to2` makes it of version 3
# ---- names
table_misspelt            | bundle | == table data ; 0 8 linear /dev/ram0 0 ; == script ; ram 0 8 ; create m dtaa ; replay | script 2 V1 | mended | Write on line 5: create m data
table_in_the_plural       | bundle | == table disk ; 0 8 linear /dev/ram0 0 ; == script ; ram 0 8 ; create m disks ; replay | script 2 V1 | mended | create m disk
table_in_capitals         | bundle | == table Tab ; 0 8 linear /dev/ram0 0 ; == script ; ram 0 8 ; create m tab ; replay | script 2 V1 | mended | create m Tab
table_of_no_near_name     | bundle | == table data ; 0 8 linear /dev/ram0 0 ; == script ; ram 0 8 ; create m log ; replay | script 2 V1 | told | no part `== table log`, but only the tables data
table_of_two_near_names   | bundle | == table t1 ; 0 8 zero ; == table t2 ; 0 8 zero ; == script ; create m t ; replay | script 1 V1 | asked | On line 6: `create m t1`? On line 6: `create m t2`?
no_table_at_all           | bundle | == script ; create m t ; replay | script 1 V1 | told | the bundle has no part `== table t`, and no other table
table_loaded_misspelt     | bundle | == table data ; 0 8 zero ; == script ; create m data ; load m dat ; replay | script 2 V1 | mended | load m data
device_and_table_swapped  | script | ram 0 8 ; create t m ; replay | script 2 V1 | mended | create m t
load_swapped              | script | ram 0 8 ; create m t ; load t m ; replay | script 3 V1 | mended | load m t
device_transposed         | bundle | == table t ; 0 8 zero ; == script ; create wal t ; status wla ; replay | script 2 V1 | mended | status wal
device_a_letter_short     | bundle | == table t ; 0 8 zero ; == script ; create data t ; suspend dat ; resume data ; replay | script 2 V1 | mended | suspend data
device_a_letter_more      | bundle | == table t ; 0 8 zero ; == script ; create data t ; table datab ; replay | script 2 V1 | mended | table data
device_two_letters_off    | bundle | == table t ; 0 8 zero ; == script ; create journal t ; table jurnel ; replay | script 2 V1 | mended | table journal
device_three_letters_off  | bundle | == table t ; 0 8 zero ; == script ; create journal t ; table jrnl ; replay | script 2 V1 | told | no device jrnl stands here, but only journal
device_of_two_near_names  | bundle | == table t ; 0 8 zero ; == script ; create wal t ; create wax t ; suspend wa ; replay | script 3 V1 | asked | On line 6: `suspend wal`? On line 6: `suspend wax`?
device_of_one_letter      | script | ram 0 8 ; create m t ; suspend q ; replay | script 3 V1 | told | no device q stands here, but only m
device_of_no_near_name    | bundle | == table t ; 0 8 zero ; == script ; create data t ; suspend wall ; replay | script 2 V1 | told | but only data
device_created_below      | script | ram 0 8 ; create m t ; suspend n ; create n t ; replay | script 3 V1 | told | line 7 creates it, further down
device_removed_above      | script | ram 0 8 ; create m t ; create n t ; remove n ; status n ; replay | script 5 V1 | told | line 7 removes it
message_to_no_device      | bundle | == table t ; 0 8 dust /dev/ram0 0 512 ; == script ; ram 0 8 ; create disk t ; message dsik 0 enable ; replay | script 3 V1 | mended | message disk 0 enable
lower_device_below        | bundle | == table t ; 0 8 linear /dev/mapper/low 0 ; == table l ; 0 8 zero ; == script ; create m t ; create low l ; replay | script 1 V1 | told | line 7 creates it, further down
lower_device_misspelt     | bundle | == table t ; 0 8 linear /dev/mapper/lwo 0 ; == table l ; 0 8 zero ; == script ; create low l ; create m t ; replay | script 2 V1 | mended | Write on line 2: 0 8 linear /dev/mapper/low 0
lower_device_by_name      | bundle | == table t ; 0 8 linear low 0 ; == table l ; 0 8 zero ; == script ; create low l ; create m t ; replay | script 2 V1 | mended | 0 8 linear /dev/mapper/low 0
lower_device_by_number    | bundle | == table t ; 0 8 linear /dev/dm-5 0 ; == table l ; 0 8 zero ; == script ; create low l ; create m t ; replay | script 2 V1 | mended | 0 8 linear /dev/dm-0 0
disk_that_two_lines_name  | table | 0 4 linear /dev/ram1 0 ; 4 4 linear /dev/ram1 4 | script 2 V1 | asked | On line 5: `ram 1 8`? Before line 6: `ram 1 8`?
disk_by_its_short_name    | table | 0 8 linear ram0 0 | script 2 V1 | mended | 0 8 linear /dev/ram0 0
disk_transposed           | table | 0 8 linear /dev/rma0 0 | script 2 V1 | mended | 0 8 linear /dev/ram0 0
disk_as_a_mapped_device   | table | 0 8 linear /dev/mapper/ram0 0 | script 2 V1 | mended | 0 8 linear /dev/ram0 0
disk_of_no_ram            | script | create m t ; replay | script 1 V1 | mended | Write before line 4: ram 0 8
second_disk_of_a_delay    | bundle | == table t ; 0 8 delay /dev/ram0 0 5 /dev/ram9 0 5 ; == script ; ram 0 8 ; create m t ; replay | script 2 V1 | asked | Before line 5: `ram 9 8`?
file_transposed           | bundle | == table t ; 0 8 zero ; == script ; create wal t ; replay ; == log a ; fio version 2 iolog ; /dev/mapper/wla add | log a 2 V12 | mended | /dev/mapper/wal add
file_of_no_near_name      | bundle | == table t ; 0 8 zero ; == script ; create data t ; replay ; == log a ; fio version 2 iolog ; /dev/mapper/wall write 0 512 | log a 2 V12 | told | the NAMEs that stand there are data
file_of_two_near_names    | bundle | == table t ; 0 8 zero ; == script ; create wal t ; create wax t ; replay ; == log a ; fio version 2 iolog ; /dev/mapper/wa add | log a 2 V12 | asked | On line 9: `/dev/mapper/wal add`? On line 9: `/dev/mapper/wax add`?
file_without_mapper       | bundle | == table t ; 0 8 zero ; == script ; create wal t ; replay ; == log a ; fio version 2 iolog ; /dev/wal add | log a 2 V12 | mended | /dev/mapper/wal add
file_created_after_replay | bundle | == table t ; 0 8 zero ; == script ; replay ; create m t ; == log a ; fio version 2 iolog ; /dev/mapper/m add | log a 2 V12 | told | line 5 creates the device m behind the `replay`, line 4
file_removed_before       | bundle | == table t ; 0 8 zero ; == script ; create m t ; remove m ; replay ; == log a ; fio version 2 iolog ; /dev/mapper/m add | log a 2 V12 | told | line 5 removes the device m
file_without_a_table      | bundle | == script ; create m --notable ; replay ; == log a ; fio version 2 iolog ; /dev/mapper/m add | log a 2 V12 | told | which line 2 creates, has no live table at the `replay`, line 3
file_never_added          | log | fio version 2 iolog ; /dev/mapper/m read 0 512 | log a 2 V13 | told | `/dev/mapper/m add` and then `/dev/mapper/m open`
file_opened_misspelt      | bundle | == table t ; 0 8 zero ; == script ; create wal t ; replay ; == log a ; fio version 2 iolog ; /dev/mapper/wal add ; /dev/mapper/wl open | log a 3 V12 | mended | /dev/mapper/wal open
# ---- words
type_misspelt             | table | 0 8 liner /dev/ram0 0 | table t 1 Unknown | mended | 0 8 linear /dev/ram0 0
type_transposed           | table | 0 8 lienar /dev/ram0 0 | table t 1 Unknown | mended | 0 8 linear /dev/ram0 0
flakey_misspelt           | table | 0 8 flaky /dev/ram0 0 5 1 | table t 1 Unknown | mended | 0 8 flakey /dev/ram0 0 5 1
feature_misspelt          | table | 0 8 flakey /dev/ram0 0 5 1 1 drop_write | table t 1 Feature | mended | 1 drop_writes
type_before_the_length    | table | 0 linear 64 | table t 1 Number | told | word 2, `linear`, is no number; the type is the third word
zero_before_the_length    | table | 0 zero 8 | table t 1 Number | mended | 0 8 zero
device_before_the_type    | table | 0 8 /dev/ram0 linear 0 | table t 1 Unknown | mended | 0 8 linear /dev/ram0 0
offset_before_the_device  | table | 0 8 linear 0 /dev/ram0 | table t 1 Number | mended | 0 8 linear /dev/ram0 0
table_line_with_backslash | table | 0 8 linear /dev/ram0 0 \\\\ | table t 1 Args | mended | a backslash there joins no lines
table_line_with_semicolon | bundle | == table t ; 0 8 zero\x3B ; == script ; create m t ; replay | table t 1 Unknown | mended | 0 8 zero
length_with_a_comma       | table | 0 8, linear /dev/ram0 0 | table t 1 Number | mended | word 2, `8,`, is no number
delay_of_nothing          | table | 7 1 delay | table t 1 Gap | told | starts at 0
delay_without_a_device    | table | 0 8 delay | table t 1 Args | told | DEVICE OFFSET MILLISECONDS
length_of_zeroes          | table | 0 000 zero x | table t 1 ZeroLength | told | at least one sector
verb_misspelt             | script | ram 0 8 ; craete m t ; replay | script 2 BadLine | mended | create m t
verb_and_name_misspelt    | bundle | == table t ; 0 8 zero ; == script ; create xy t ; suspend xy ; resGme _xy ; replay | script 3 BadLine | mended | resume _xy
verb_twice                | script | ram 0 8 ; create create m t ; replay | script 2 BadLine | mended | create m t
verb_behind_its_name      | script | ram 0 8 ; create m t ; m suspend ; resume m ; replay | script 3 BadLine | mended | suspend m
disk_in_one_word          | script | ram0 8 ; create m t ; replay | script 1 BadLine | mended | ram 0 8
disk_of_swapped_numbers   | script | ram 8 0 ; create m t ; replay | script 1 BadLine | mended | ram 0 8
option_misspelt           | bundle | == script ; create m --notabel ; replay | script 1 BadLine | mended | create m --notable
commands_on_one_line      | bundle | == table t ; 0 8 zero ; == script ; create m t\x3B replay | script 1 BadLine | told | one command on a line, and no `;`
messages_on_one_line      | bundle | == table t ; 0 8 zero ; == script ; create m t ; status m\x3B table m ; replay | script 2 BadLine | told | lines of their own
command_with_semicolon    | bundle | == table t ; 0 8 zero ; == script ; create m t\x3B ; replay | script 1 BadLine | mended | create m t
create_of_two_tables      | bundle | == table t ; 0 8 zero ; == table u ; 0 8 zero ; == script ; create m ; replay | script 1 BadLine | asked | On line 6: `create m t`? On line 6: `create m u`?
message_misspelt          | bundle | == table t ; 0 8 dust /dev/ram0 0 512 ; == script ; ram 0 8 ; create m t ; message m 0 addbadblok 3 ; replay | script 3 V9 | mended | message m 0 addbadblock 3
message_to_a_high_block   | bundle | == table t ; 0 64 dust /dev/ram0 0 512 ; == script ; ram 0 64 ; create m t ; message m 0 addbadblock 64 ; replay | script 3 V9 | mended | the highest block of the line is 63
message_to_large_blocks   | bundle | == table t ; 0 9 dust /dev/ram0 0 4096 ; == script ; ram 0 9 ; create m t ; message m 0 addbadblock 2 ; replay | script 3 V9 | mended | the highest block of the line is 1:
message_past_the_end      | bundle | == table t ; 0 8 dust /dev/ram0 0 512 ; == script ; ram 0 8 ; create m t ; message m 8 enable ; replay | script 3 V9 | mended | has 8 sectors, and no sector 8. Write on line 6: message m 0 enable
action_misspelt           | use | wirte 0 512 | log a 4 BadLine | mended | /dev/mapper/m write 0 512
action_before_the_file    | log | fio version 2 iolog ; add /dev/mapper/m ; /dev/mapper/m open | log a 2 BadLine | mended | /dev/mapper/m add
action_twice              | use | write write 0 512 | log a 4 BadLine | mended | /dev/mapper/m write 0 512
length_behind_a_comma     | use | write 0 512, | log a 4 BadLine | mended | word 4, `512,`, is no number
offset_of_letters         | use | write x 512 | log a 4 BadLine | told | word 3, `x`, is no number
line_with_semicolon       | use | write 0 512\x3B | log a 4 BadLine | mended | /dev/mapper/m write 0 512
header_misspelt           | log | fio version 2 iologs ; /dev/mapper/m add ; /dev/mapper/m open | log a 1 Header | mended | Write on line 8: fio version 2 iolog
event_misspelt            | audit | == script ; create m --notable ; replay ; == history ; contrl ; control | history 1 BadLine | mended | Write on line 5: control
# ---- headings
heading_misspelt          | bundle | == tabel t ; 0 8 zero ; == script ; create m t ; replay | bundle 1 BadHeading | mended | == table t
script_misspelt           | bundle | == scirpt ; create m --notable ; replay | bundle 1 BadHeading | mended | == script
history_misspelt          | bundle | == script ; replay ; == histroy ; control | bundle 3 BadHeading | mended | == history
table_without_a_name      | bundle | == table ; 0 8 zero ; == script ; create m tab ; replay | bundle 1 BadHeading | mended | == table tab
two_marks                 | bundle | == == script ; replay | bundle 1 BadHeading | mended | == script
script_lines_in_a_table   | bundle | == table t ; 0 8 linear /dev/ram0 0 ; ram 0 8 ; create m t ; replay | bundle 0 NoScript | mended | Write before line 3: == script
indented_script           | bundle | == table t ; 0 8 zero ; \x20== script ; create m t ; replay | bundle 0 NoScript | mended | Write on line 3: == script
indented_log              | bundle | == script ; create m --notable ; replay ; \x20== log a ; fio version 2 iolog | script 3 BadLine | mended | Write on line 4: == log a
log_without_its_heading   | bundle | == script ; create m --notable ; replay ; fio version 2 iolog | script 3 BadLine | mended | Write before line 4: == log a
second_log_in_a_log       | bundle | == script ; create m --notable ; replay ; == log a ; fio version 2 iolog ; fio version 2 iolog | log a 2 BadLine | mended | Write before line 6: == log b
two_logs_joined           | bundle | == table t ; 0 8 linear /dev/ram0 0 ; == script ; ram 0 8 ; create m t ; replay ; == log a ; fio version 2 iolog ; /dev/mapper/m add ; /dev/mapper/m open ; /dev/mapper/m close ; fio version 2 iolog ; /dev/mapper/m add ; /dev/mapper/m open ; /dev/mapper/m close | log a 5 BadLine | asked | the two run side by side; without this line the one log goes on, and does the one behind the other. Which is meant? Before line 12: `== log b`? Line 12 blank: ``?
heading_one_line_too_low  | bundle | == table t ; 0 8 linear /dev/ram0 0 ; == script ; ram 0 8 ; create m t ; replay ; fio version 2 iolog ; == log a ; /dev/mapper/m add ; /dev/mapper/m open | script 4 BadLine | told | exchange the lines 7 and 8: the heading `== log a` stands one line too low, below the first line of its log.
heading_too_low_at_first  | bundle | fio version 2 iolog ; == log a ; /dev/mapper/m add ; == script ; replay | bundle 1 Stray | told | exchange the lines 1 and 2
use_within_the_script     | bundle | == table t ; 0 8 zero ; == script ; /dev/mapper/m sync 0 0 ; create m t ; replay ; == log app ; fio version 2 iolog ; /dev/mapper/m add ; /dev/mapper/m open ; /dev/mapper/m close | script 1 BadLine | told | the line looks like one of a log: it belongs under the heading `== log app`, line 7, behind the `open` of its file
uses_behind_the_script    | bundle | == table t ; 0 8 zero ; == script ; create m t ; replay ; /dev/mapper/m add ; /dev/mapper/m open ; == log app ; fio version 2 iolog ; /dev/mapper/m add ; /dev/mapper/m open ; /dev/mapper/m close | script 3 BadLine | mended | Write before line 6: == log a
table_in_a_table          | bundle | == table t ; 0 8 zero ; 0 8 error ; == script ; create m t ; create n u ; replay | table t 2 Gap | mended | Write before line 3: == table u
table_in_a_script         | bundle | == script ; create m t ; replay ; 0 8 zero | script 3 BadLine | mended | Write before line 4: == table t
table_of_another_name     | bundle | == table t ; 0 8 zero ; == table t ; 0 8 error ; == script ; create m t ; create n u ; replay | bundle 3 Twice | mended | Write on line 3: == table u
second_script_right_below | bundle | == script ; ram 0 8 ; == script ; replay | bundle 3 Twice | mended | a bundle has one script, which begins on line 1: put the lines of this one into the first. Leave line 3 blank
second_script_elsewhere   | bundle | == script ; ram 0 8 ; == table t ; 0 8 zero ; == script ; replay | bundle 5 Twice | told | put the lines of this one into the first.
second_log_of_a_name      | bundle | == script ; ram 0 8 ; replay ; == log a ; fio version 2 iolog ; == log a ; fio version 2 iolog ; /dev/ram0 add | bundle 6 Twice | mended | give this one another name; or put its lines under that, of a log only those behind `add` and `open`. Write on line 6: == log b
command_in_a_log          | log | fio version 2 iolog ; /dev/mapper/m add ; suspend m | log a 3 BadLine | told | it belongs under the heading `== script`
output_of_a_run           | bundle | == table t ; 0 8 zero ; == script ; create m t ; replay ; accepted budget=2 ; done steps=2 clock=0 now=0 ; == history ; control ; control | script 3 BadLine | told | only the part from `== history` on
# ---- commands that stand elsewhere, and sizes
replay_before_create      | script | ram 0 8 ; replay ; create m t | log a 2 V12 | told | put that `create` before the `replay`
wait_without_replay       | script | ram 0 8 ; create m t ; wait | script 3 V10 | mended | Write before line 6: replay
device_left_suspended     | script | ram 0 8 ; create m t ; suspend m ; replay | script 0 V7 | mended | resume m
suspended_at_the_wait     | script | ram 0 8 ; create m t ; replay ; suspend m ; wait | script 5 V7 | mended | Write before line 8: resume m
suspend_before_its_resume | bundle | == table t ; 0 8 zero ; == script ; create m --notable ; load m t ; suspend m ; resume m ; replay | script 3 V3 | mended | Write before line 6: resume m
table_longer_than_disk    | table | 0 16 linear /dev/ram0 0 | script 2 V4 | asked | On line 2: `0 8 linear /dev/ram0 0`? On line 4: `ram 0 16`?
table_past_a_large_disk   | table | 0 8 linear /dev/ram0 65536 | script 2 V4 | told | reaches up to sector 65544 of /dev/ram0
table_longer_than_below   | bundle | == table t ; 0 9 linear /dev/mapper/low 0 ; == table l ; 0 8 zero ; == script ; create low l ; create m t ; replay | script 2 V4 | mended | sector 9 of /dev/mapper/low, which has 8 sectors
load_that_is_shorter      | bundle | == table t ; 0 8 zero ; == table u ; 0 4 zero ; == script ; create m t ; load m u ; replay | script 2 V5 | told | table u has 4 sectors, the live table of m has 8
seventeen_disks           | bundle | == script ; ram 0 1 ; ram 1 1 ; ram 2 1 ; ram 3 1 ; ram 4 1 ; ram 5 1 ; ram 6 1 ; ram 7 1 ; ram 8 1 ; ram 9 1 ; ram 10 1 ; ram 11 1 ; ram 12 1 ; ram 13 1 ; ram 14 1 ; ram 15 1 ; ram 16 1 ; replay | limits 0 V16 | told | 17 `ram` lines, 1 more
name_in_use_otherwise     | bundle | == table t ; 0 8 zero ; == table u ; 0 8 zero ; == script ; create m t ; create m u ; replay | script 2 V2 | told | the device m is in use, by line 6: another device has another name; or, to change the table of m, write `load m u`
read_past_the_end         | use | read 4096 512 | log a 4 V14 | told | ends at byte 4608, past the 4096 bytes
# ---- what a third tester tried
length_in_bytes_of_a_disk | table | 0 4096 linear /dev/ram0 0 | script 2 V4 | mended | 4096 bytes are 8 of them. Write on line 2: 0 8 linear /dev/ram0 0
flags_that_are_missing    | table | 0 8 flakey /dev/ram0 0 0 1 4 corrupt_bio_byte 1 w 0 | table t 1 Args | mended | Write on line 2: 0 8 flakey /dev/ram0 0 0 1 5 corrupt_bio_byte 1 w 0 0
features_behind_a_comma   | table | 0 8 flakey /dev/ram0 0 5 1 1 error_reads,error_writes | table t 1 Feature | mended | 5 1 2 error_reads error_writes
second_group_of_two_words | table | 0 8 delay /dev/ram0 0 0 /dev/ram0 500 | table t 1 Args | mended | 0 8 delay /dev/ram0 0 0 /dev/ram0 0 500
delay_without_an_offset   | table | 0 8 delay /dev/ram0 500 | table t 1 Args | mended | Write on line 2: 0 8 delay /dev/ram0 0 500
interval_with_a_point     | table | 0 8 flakey /dev/ram0 0 5 0.5 | table t 1 Number | told | word 7, `0.5`, is no number; flakey's UP and DOWN are whole seconds
delay_of_half_a_second    | table | 0 8 delay /dev/ram0 0 0.5s | table t 1 Number | mended | 0 8 delay /dev/ram0 0 500
sleep_of_half_a_second    | script | ram 0 8 ; create m t ; replay ; sleep 0.5s | script 4 BadLine | mended | sleep 500000
target_that_is_lacking    | table | 0 8 log-writes /dev/ram0 /dev/ram1 | table t 1 Unknown | told | log-writes is a target of Linux that dmlab lacks: its types are linear, zero, error, flakey, dust and delay
target_of_stripes         | table | 0 8 striped 2 4 /dev/ram0 0 /dev/ram1 0 | table t 1 Unknown | told | a `linear` line for each chunk
type_with_dm_before_it    | table | 0 8 dm-linear /dev/ram0 0 | table t 1 Unknown | mended | 0 8 linear /dev/ram0 0
feature_on_a_delay_line   | table | 0 8 delay /dev/ram0 0 100 1 error_writes | table t 1 Args | told | error_writes is a feature of flakey
feature_on_a_linear_line  | table | 0 8 linear /dev/ram0 0 1 drop_writes | table t 1 Args | told | create a device with a flakey line over one
flakey_named_linear       | table | 0 8 linear /dev/ram0 0 5 5 1 drop_writes | table t 1 Args | asked | Which is meant? On line 2: `0 8 flakey /dev/ram0 0 5 5 1 drop_writes`? On line 2: `0 8 linear /dev/ram0 0`?
times_on_a_linear_line    | table | 0 8 linear /dev/ram0 0 5 5 | table t 1 Args | asked | On line 2: `0 8 flakey /dev/ram0 0 5 5`? On line 2: `0 8 linear /dev/ram0 0`?
start_behind_the_type     | table | flakey 0 8 /dev/ram0 0 5 1 | table t 1 Number | mended | Write on line 2: 0 8 flakey /dev/ram0 0 5 1
heading_with_hyphens      | bundle | == script ; create m --notable ; replay ; -- log journal ; fio version 2 iolog | script 3 BadLine | mended | Write on line 4: == log journal
script_in_brackets        | bundle | == table t ; 0 8 zero ; [script] ; create m t ; replay | bundle 0 NoScript | mended | Write on line 3: == script
log_in_brackets           | bundle | == script ; create m --notable ; replay ; [log a] ; fio version 2 iolog | script 3 BadLine | mended | Write on line 4: == log a
table_in_brackets         | bundle | [table t] ; 0 8 zero ; == script ; create m t ; replay | bundle 1 Stray | mended | Write on line 1: == table t
dash_of_print             | bundle | == script ; create m \xE2\x80\x93notable ; replay | bundle 2 NotText | mended | Write on line 2: create m --notable
long_dash_of_print        | bundle | == script ; create m \xE2\x80\x94notable ; replay | bundle 2 NotText | mended | Write on line 2: create m --notable
dash_of_print_in_a_word   | bundle | == table t\xE2\x80\x93a ; 0 8 zero ; == script ; create m t-a ; replay | bundle 1 NotText | mended | Write on line 1: == table t-a
quotes_of_print           | table | \xE2\x80\x9C0 8 linear /dev/ram0 0\xE2\x80\x9D | bundle 2 NotText | mended | Write on line 2: 0 8 linear /dev/ram0 0
blank_of_print            | table | 0\xC2\xA08 linear /dev/ram0 0 | bundle 2 NotText | mended | Write on line 2: 0 8 linear /dev/ram0 0
message_with_sector_last  | bundle | == table t ; 0 8 dust /dev/ram0 0 512 ; == script ; ram 0 8 ; create m t ; message m addbadblock 2 0 ; replay | script 3 BadLine | mended | message m 0 addbadblock 2
message_with_word_last    | bundle | == table t ; 0 8 dust /dev/ram0 0 512 ; == script ; ram 0 8 ; create m t ; message m 0 2 addbadblock ; replay | script 3 V9 | mended | message m 0 addbadblock 2
message_of_block_or_start | bundle | == table t ; 0 8 dust /dev/ram0 0 512 ; == script ; ram 0 8 ; create m t ; message m addbadblock 0 2 ; replay | script 3 BadLine | asked | `message m 0 addbadblock 2`?
message_of_several_blocks | bundle | == table t ; 0 8 dust /dev/ram0 0 512 ; == script ; ram 0 8 ; create m t ; message m 0 addbadblock 2 3 ; replay | script 3 BadLine | told | a message has one block, so each one takes a line of its own: `message m 0 addbadblock 2`, `message m 0 addbadblock 3`
block_by_its_first_byte   | bundle | == table t ; 0 64 dust /dev/ram0 0 4096 ; == script ; ram 0 64 ; create m t ; message m 0 addbadblock 8192 ; replay | script 3 V9 | mended | have 4096 bytes here. Write on line 6: message m 0 addbadblock 2
block_by_its_first_sector | bundle | == table t ; 0 64 dust /dev/ram0 0 4096 ; == script ; ram 0 64 ; create m t ; message m 0 addbadblock 16 ; replay | script 3 V9 | mended | message m 0 addbadblock 2
command_without_a_name    | script | ram 0 8 ; create m t ; replay ; status | script 4 BadLine | mended | Write on line 7: status m
info_as_dmsetup_has_it    | script | ram 0 8 ; create m t ; replay ; info m | script 4 BadLine | mended | no commands here: `status NAME` shows the state of a device, `table NAME` its lines. Write on line 7: status m
disk_without_a_number     | script | ram 8 ; create m t ; replay | script 1 BadLine | mended | Write on line 4: ram 0 8
wait_without_its_file     | log | fio version 2 iolog ; /dev/mapper/m add ; /dev/mapper/m open ; wait 1000 | log a 4 BadLine | mended | Write on line 11: /dev/mapper/m wait 1000 0
file_of_two_in_the_log    | log | fio version 2 iolog ; /dev/mapper/m add ; /dev/ram0 add ; /dev/ram0 open ; sync | log a 5 BadLine | mended | Write on line 12: /dev/ram0 sync 0 0
sleep_of_one_s            | script | ram 0 8 ; create m t ; replay ; sleep 1 s | script 4 BadLine | mended | Write on line 7: sleep 1000000
delay_of_a_hundred_ms     | table | 0 8 delay /dev/ram0 0 100 ms | table t 1 Args | mended | 0 8 delay /dev/ram0 0 100
wait_of_five_s            | use | wait 5 s 0 | log a 4 BadLine | mended | /dev/mapper/m wait 5000000 0
file_with_a_slash_behind  | log | fio version 2 iolog ; /dev/mapper/m/ add ; /dev/mapper/m open | log a 2 V12 | mended | /dev/mapper/m add
sync_without_its_file     | log | fio version 2 iolog ; /dev/mapper/m add ; /dev/mapper/m open ; sync | log a 4 BadLine | mended | Write on line 11: /dev/mapper/m sync 0 0
length_before_the_offset  | use | write 4096 0 | log a 4 EmptyRange | mended | Write on line 11: /dev/mapper/m write 0 4096
length_past_the_device    | use | write 8192 0 | log a 4 EmptyRange | told | OFFSET stands before LENGTH
event_behind_its_moment   | audit | == script ; create m --notable ; replay ; == history ; 1 0 control ; control | history 1 BadLine | mended | Write on line 5: control
event_of_a_log            | audit | == script ; replay ; == history ; log 1 | history 1 BadLine | mended | Write on line 4: line 1
# ---- what a fourth tester tried
table_of_starts_and_ends  | table | 0 4 linear /dev/ram0 0 ; 4 6 error ; 6 8 linear /dev/ram0 6 | table t 3 Gap | asked | On line 3: `4 2 error`? On line 4: `10 8 linear /dev/ram0 6`?
last_line_up_to_its_end   | table | 0 4 linear /dev/ram0 0 ; 4 8 linear /dev/ram0 4 | script 2 V4 | mended | the second word is a LENGTH, 8 sectors here, and not an end. Write on line 3: 4 4 linear /dev/ram0 4
gap_of_lengths            | table | 0 4 zero ; 5 3 zero | table t 2 Gap | asked | each other one where the line before it ends. Which is meant? On line 3: `4 3 zero`? On line 2: `0 5 zero`?
bundle_behind_numbers     | bundle | \x20\x201\t# x ; \x20\x202\t== table t ; \x20\x203\t0 8 zero ; \x20\x204\t== script ; \x20\x205\tcreate m t ; \x20\x206\treplay | bundle 1 Stray | mended | `cut -d : -f 2-` those of the third
bundle_of_grep            | bundle | 1:== table t ; 2:0 8 zero ; 3:== script ; 4:create m t ; 5:replay | bundle 1 Stray | mended | Write on line 1: == table t
table_behind_numbers      | table | 1\t0 4 linear /dev/ram0 0 ; 2\t4 4 zero | table t 1 ZeroLength | mended | `cut -d : -f 2-` those of the third
script_behind_numbers     | script | 4\tram 0 8 ; 5\tcreate m t ; 6\treplay | script 1 BadLine | mended | `cut -d : -f 2-` those of the third
log_behind_numbers        | log | 1\tfio version 2 iolog ; 2\t/dev/mapper/m add ; 3\t/dev/mapper/m open | log a 1 Header | mended | `cut -d : -f 2-` those of the third
log_behind_its_times      | log | fio version 2 iolog ; 2 /dev/mapper/m add ; 5 /dev/mapper/m open | log a 2 BadLine | told | `tools/iolog3to2` makes it of version 3
chance_in_percent         | table | 0 8 flakey /dev/ram0 0 0 1 2 random_read_corrupt 5% | table t 1 Value | mended | `5%` is no number; a chance counts in 1,000,000,000: 50000000 is one of 5 percent. Write on line 2: 0 8 flakey /dev/ram0 0 0 1 2 random_read_corrupt 50000000
chance_with_a_point       | table | 0 8 flakey /dev/ram0 0 0 1 2 random_write_corrupt 0.001 | table t 1 Value | mended | random_write_corrupt 1000000
chance_of_one_in_four     | table | 0 8 flakey /dev/ram0 0 0 1 2 random_write_corrupt 1/4 | table t 1 Value | mended | random_write_corrupt 250000000
chance_of_half_a_percent  | table | 0 8 flakey /dev/ram0 0 0 1 3 random_read_corrupt 0.5 % | table t 1 Value | mended | 0 1 2 random_read_corrupt 5000000
chance_past_all           | table | 0 8 flakey /dev/ram0 0 0 1 2 random_read_corrupt 2000000000 | table t 1 Value | told | a chance counts in 1,000,000,000: it is a number of 0 to 1000000000
byte_of_no_place          | table | 0 8 flakey /dev/ram0 0 0 1 5 corrupt_bio_byte 0 r 1 0 | table t 1 Value | mended | corrupt_bio_byte takes a byte from 1 on
block_in_place_of_sector  | bundle | == table t ; 0 64 dust /dev/ram0 0 512 ; == script ; ram 0 64 ; create m t ; message m 60 addbadblock ; replay | script 3 V9 | mended | 60 stands in the place of the SECTOR. Write on line 6: message m 0 addbadblock 60
block_that_is_left_out    | bundle | == table t ; 0 64 dust /dev/ram0 0 512 ; == script ; ram 0 64 ; create m t ; message m 0 addbadblock ; replay | script 3 V9 | told | addbadblock N`, with a block N.
two_messages_on_a_line    | bundle | == table t ; 0 64 dust /dev/ram0 0 512 ; == script ; ram 0 64 ; create m t ; message m 0 addbadblock 2 enable ; replay | script 3 BadLine | told | write `message m 0 addbadblock 2` and `message m 0 enable`, each on a line of its own
feature_as_a_message      | bundle | == table t ; 0 8 flakey /dev/ram0 0 60 0 ; == script ; ram 0 8 ; create m t ; replay ; message m 0 drop_writes | script 4 V9 | told | write a table that has drop_writes, and in the place of this line `load m TABLE` and below it `resume m`
enable_to_a_flakey_line   | bundle | == table t ; 0 8 flakey /dev/ram0 0 60 0 ; == script ; ram 0 8 ; create m t ; message m 0 enable ; replay | script 3 V9 | told | is of the type flakey, which takes no message
log_by_name_in_a_history  | audit | == script ; ram 0 8 ; replay ; == log a ; fio version 2 iolog ; == log b ; fio version 2 iolog ; == history ; line b | history 1 BadLine | mended | the log b is 2. Write on line 9: line 2
log_of_no_name            | audit | == script ; ram 0 8 ; replay ; == log a ; fio version 2 iolog ; == history ; line c | history 1 BadLine | told | one number behind it.
part_of_disks             | bundle | == disks ; ram 0 8 ; == table t ; 0 8 linear /dev/ram0 0 ; == script ; create m t ; replay | bundle 1 BadHeading | told | stands under `== script`, before all other commands.
part_of_disks_for_script  | bundle | == ram ; ram 0 8 ; create m --notable ; replay | bundle 1 BadHeading | mended | stands under `== script`, before all other commands. Write on line 1: == script
part_of_devices           | bundle | == script ; ram 0 8 ; replay ; == devices ; create m --notable | bundle 4 BadHeading | told | `create NAME TABLE` makes one, and stands under `== script`
part_of_a_workload        | bundle | == script ; ram 0 8 ; replay ; == workload | bundle 4 BadHeading | told | stands under `== log NAME`
part_of_no_kind           | bundle | == script ; ram 0 8 ; replay ; == zebra | bundle 4 BadHeading | told | a heading is `== table NAME`, `== script`
name_with_a_slash         | bundle | == table t ; 0 8 zero ; == script ; create vg0/data t ; status vg0-data ; replay | script 1 BadLine | mended | a name has no `/`: it has 1 to 32 letters, digits, `_`, `.` and `-`, and its device stands in tables and logs as /dev/mapper/NAME. Write on line 4: create vg0-data t
name_of_either_part       | bundle | == table t ; 0 8 zero ; == script ; create vg0/data t ; replay | script 1 BadLine | asked | On line 4: `create vg0-data t`? On line 4: `create data t`?
name_of_the_last_part     | bundle | == table t ; 0 8 zero ; == script ; create data t ; status vg0/data ; replay | script 2 BadLine | mended | Write on line 5: status data
name_of_36_letters        | bundle | == table t ; 0 8 zero ; == script ; create vg_prod_db01-lv_postgres_wal_archive t ; replay | script 1 BadLine | mended | the name has 36 letters, and a name has 1 to 32. Write on line 4: create vg_prod_db01-lv_postgres_wal_arc t
table_of_36_letters       | bundle | == table vg_prod_db01-lv_postgres_wal_archive ; 0 8 zero ; == script ; create m vg_prod_db01-lv_postgres_wal_archive ; replay | bundle 1 BadHeading | mended | Write on line 1: == table vg_prod_db01-lv_postgres_wal_arc
name_of_32_letters        | bundle | == table t ; 0 8 zero ; == script ; create vg_prod_db01-lv_postgres_wal_arc t u ; replay | script 1 BadLine | mended | it is `create NAME TABLE`
marks_of_a_conflict       | bundle | == table t ; <<<<<<< HEAD ; 0 8 zero ; ======= ; 0 8 error ; >>>>>>> other ; == script ; create m t ; replay | bundle 4 BadHeading | told | keep the lines of one side, and take out the marks
begin_of_a_conflict       | table | <<<<<<< HEAD ; 0 8 linear /dev/ram0 0 | table t 1 Args | mended | Leave line 2 blank
heading_of_three_signs    | bundle | === script ===== ; replay | bundle 1 BadHeading | mended | Write on line 1: == script
line_behind_its_heading   | bundle | == table t 0 8 zero ; == script ; create m t ; replay | bundle 1 BadHeading | told | write `== table t` there, and `0 8 zero` on a line of its own below it
command_behind_heading    | bundle | == script ram 0 8 ; replay | bundle 1 BadHeading | told | write `== script` there, and `ram 0 8` on a line of its own below it
comment_behind_a_heading  | bundle | == table t # x ; 0 8 zero ; == script ; create m t ; replay | bundle 1 BadHeading | mended | Write on line 1: == table t
history_alone             | audit | == history ; control | bundle 0 NoScript | told | this is a history without its bundle
disk_past_all             | script | ram 0 131072 ; create m t ; replay | script 1 BadLine | told | all disks of a bundle have at most 65536 sectors together
table_past_any_disk       | bundle | == table t ; 0 131072 linear /dev/ram0 0 ; == script ; ram 0 65536 ; create m t ; replay | script 2 V4 | mended | at most 65536 sectors together. Write on line 2: 0 65536 linear /dev/ram0 0
map_left_out              | audit | == table t ; 0 8 linear /dev/ram0 0 ; == script ; ram 0 8 ; create m t ; replay ; == log a ; fio version 2 iolog ; /dev/mapper/m add ; /dev/mapper/m open ; /dev/mapper/m write 0 512 ; == history ; control ; control ; line 1 ; line 1 ; line 1 ; serve 1 ; finish 1 | not a run at 6 | told | and no `map 1` stands above it
serve_left_out            | audit | == table t ; 0 8 linear /dev/ram0 0 ; == script ; ram 0 8 ; create m t ; replay ; == log a ; fio version 2 iolog ; /dev/mapper/m add ; /dev/mapper/m open ; /dev/mapper/m write 0 512 ; == history ; control ; control ; line 1 ; line 1 ; line 1 ; map 1 ; finish 1 | not a run at 7 | told | no `serve` stands between the two
control_too_many          | audit | == script ; replay ; == history ; control ; control | not a run at 2 | told | those before it may; a history is taken whole
# ---- what a fifth tester tried
wait_for_five             | script | ram 0 8 ; create m t ; replay ; wait 5 | script 4 BadLine | asked | `wait` has no number behind it: it waits until all logs have ended. `sleep MICROSECONDS` lets time pass, 1000000 for one second. Which is meant? On line 7: `sleep 5000000`? On line 7: `wait`?
wait_for_a_second         | script | ram 0 8 ; create m t ; replay ; wait 1s | script 4 BadLine | mended | Write on line 7: sleep 1000000
wait_of_five_in_a_log     | use | wait 5 | log a 4 BadLine | asked | Which is meant? On line 11: `/dev/mapper/m wait 5000000 0`? On line 11: `/dev/mapper/m wait 5000 0`?
serve_before_its_map      | audit | == table t ; 0 8 linear /dev/ram0 0 ; == script ; ram 0 8 ; create m t ; replay ; == log a ; fio version 2 iolog ; /dev/mapper/m add ; /dev/mapper/m open ; /dev/mapper/m write 0 512 ; == history ; control ; control ; line 1 ; line 1 ; line 1 ; serve 2 ; map 1 ; finish 1 | not a run at 6 | told | wrong order with the line below it. Write `map 1` on line 18 and `serve 2` on line 19, if so
map_of_a_piece_left_out   | audit | == table t ; 0 8 linear /dev/ram0 0 ; == script ; ram 0 8 ; create m t ; replay ; == log a ; fio version 2 iolog ; /dev/mapper/m add ; /dev/mapper/m open ; /dev/mapper/m write 0 512 ; == history ; control ; control ; line 1 ; line 1 ; line 1 ; serve 2 ; finish 1 | not a run at 6 | told | and no `map 1` stands above it
served_twice              | audit | == table t ; 0 8 linear /dev/ram0 0 ; == script ; ram 0 8 ; create m t ; replay ; == log a ; fio version 2 iolog ; /dev/mapper/m add ; /dev/mapper/m open ; /dev/mapper/m write 0 512 ; == history ; control ; control ; line 1 ; line 1 ; line 1 ; map 1 ; serve 2 ; serve 2 ; finish 1 | not a run at 8 | told | `serve 2` stands above it already
delays_of_three_groups    | table | 0 8 delay /dev/ram0 0 5 10 100 | table t 1 Args | mended | or three: for reads, for writes and trims, for flushes. Each group has its own DEVICE and OFFSET. Write on line 2: 0 8 delay /dev/ram0 0 5 /dev/ram0 0 10 /dev/ram0 0 100
delays_of_two_groups      | table | 0 8 delay /dev/ram0 0 5 10 | table t 1 Args | mended | Write on line 2: 0 8 delay /dev/ram0 0 5 /dev/ram0 0 10
table_by_an_echo          | script | ram 0 8 ; echo "0 8 linear /dev/ram0 0" \x7C dmsetup create disk ; replay | script 2 BadLine | told | write `create disk disk` on this line, and in a part `== table disk` the line `0 8 linear /dev/ram0 0`
table_in_quotes           | script | ram 0 8 ; dmsetup create m --table "0 8 linear /dev/ram0 0" ; replay | script 2 BadLine | told | write `create m m` on this line, and in a part `== table m` the line `0 8 linear /dev/ram0 0`
table_behind_its_option   | script | ram 0 8 ; create m --table t ; replay | script 2 BadLine | mended | Write on line 5: create m t
message_before_the_resume | bundle | == table t ; 0 8 linear /dev/ram0 0 ; == table u ; 0 8 dust /dev/ram0 0 512 ; == script ; ram 0 8 ; create m t ; load m u ; message m 0 addbadblock 3 ; resume m ; replay | script 4 V9 | mended | line 8 loads the table u for m, and a loaded table becomes live by `resume m`, which is missing before this line. Write before line 9: resume m
bytes_behind_a_write      | use | write 0 4096 0xaa | log a 4 BadLine | mended | a log can't choose the bytes of a write. Line L of the log number K writes (16 * K + L) mod 256 into each byte. Write on line 11: /dev/mapper/m write 0 4096
block_for_example         | table | 0 8 dust /dev/ram0 0 | table t 1 Args | mended | here for example with a BLOCK of 512 bytes
count_behind_features     | table | 0 8 flakey /dev/ram0 0 5 5 drop_writes 1 | table t 1 Number | mended | Write on line 2: 0 8 flakey /dev/ram0 0 5 5 1 drop_writes
device_of_another_case    | bundle | == table t ; 0 8 linear /dev/ram0 0 ; == script ; ram 0 8 ; create Disk t ; replay ; == log a ; fio version 2 iolog ; /dev/mapper/disk add ; /dev/mapper/disk open | log a 2 V12 | mended | but Disk, which line 5 creates: capital and small letters are different in a name
device_laid_on_itself     | table | 0 8 linear /dev/mapper/m 0 | script 2 V1 | told | the device m would be laid on itself, and line 5 is the one that creates it; the disks of this bundle are /dev/ram0
comma_behind_the_device   | table | 0 8 linear /dev/ram0,0 | table t 1 Args | mended | Write on line 2: 0 8 linear /dev/ram0 0
colon_behind_the_device   | table | 0 8 linear /dev/ram0:0 | table t 1 Args | mended | Write on line 2: 0 8 linear /dev/ram0 0
commas_between_the_words  | table | 0,8,linear,/dev/ram0,0 | table t 1 Args | mended | Write on line 2: 0 8 linear /dev/ram0 0
names_before_the_values   | table | 0 8 flakey device=/dev/ram0 offset=0 up 5 down 5 | table t 1 Number | mended | Write on line 2: 0 8 flakey /dev/ram0 0 5 5
length_by_a_shell         | table | 0 $(blockdev --getsz /dev/ram0) linear /dev/ram0 0 | table t 1 Number | mended | a table has no variables of a shell and runs no command: write the number itself. Write on line 2: 0 8 linear /dev/ram0 0
length_to_the_end         | table | 0 end linear /dev/ram0 0 | table t 1 Number | mended | Write on line 2: 0 8 linear /dev/ram0 0
length_left_out           | table | 0 linear /dev/ram0 0 | table t 1 Number | mended | Write on line 2: 0 8 linear /dev/ram0 0
start_left_out            | table | 0 4 linear /dev/ram0 0 ; 2 linear /dev/ram0 4 | table t 2 Number | mended | Write on line 3: 4 2 linear /dev/ram0 4
type_left_out             | table | 0 8 /dev/ram0 0 | table t 1 Unknown | mended | Write on line 2: 0 8 linear /dev/ram0 0
device_left_out           | table | 0 8 linear 0 | table t 1 Args | mended | it is `START LENGTH linear DEVICE OFFSET`. Write on line 2: 0 8 linear /dev/ram0 0
start_and_end_as_a_range  | table | 0-7 linear /dev/ram0 0 | table t 1 Number | asked | On line 2: `0 7 linear /dev/ram0 0`? On line 2: `0 8 linear /dev/ram0 0`?
two_rows_on_one_line      | table | 0 4 linear /dev/ram0 0 4 4 zero | table t 1 Args | told | write `0 4 linear /dev/ram0 0` here, and `4 4 zero` on a line below it
rows_with_a_comma_between | bundle | == table t ; 0 4 linear /dev/ram0 0,4 4 linear /dev/ram1 0 ; == script ; ram 0 4 ; ram 1 4 ; create m t ; replay | table t 1 Args | told | write `0 4 linear /dev/ram0 0` here, and `4 4 linear /dev/ram1 0` on a line below it
rows_with_a_comma_behind  | bundle | == table t ; 0 4 linear /dev/ram0 0, 4 4 linear /dev/ram1 0 ; == script ; ram 0 4 ; ram 1 4 ; create m t ; replay | table t 1 Args | told | write `0 4 linear /dev/ram0 0` here, and `4 4 linear /dev/ram1 0` on a line below it
rows_with_a_semicolon     | bundle | == table t ; 0 4 linear /dev/ram0 0\x3B4 4 linear /dev/ram1 0 ; == script ; ram 0 4 ; ram 1 4 ; create m t ; replay | table t 1 Args | told | write `0 4 linear /dev/ram0 0` here, and `4 4 linear /dev/ram1 0` on a line below it
rows_with_a_break_spelt   | bundle | == table t ; 0 4 linear /dev/ram0 0\x5Cn4 4 flakey /dev/ram1 0 5 5 1 drop_writes ; == script ; ram 0 4 ; ram 1 4 ; create m t ; replay | table t 1 Args | told | write `0 4 linear /dev/ram0 0` here, and `4 4 flakey /dev/ram1 0 5 5 1 drop_writes` on a line below it
devices_of_one_line       | bundle | == table t ; 0 8 linear /dev/ram0 0 /dev/ram1 0 ; == script ; ram 0 4 ; ram 1 4 ; create m t ; replay | table t 1 Args | told | a linear line has one DEVICE and OFFSET: write `0 4 linear /dev/ram0 0` here, and `4 4 linear /dev/ram1 0` on a line below it
devices_of_other_sizes    | bundle | == table t ; 0 6 linear /dev/ram0 0 /dev/ram1 0 ; == script ; ram 0 4 ; ram 1 4 ; create m t ; replay | table t 1 Args | told | write `0 LENGTH linear /dev/ram0 0` here, and `START LENGTH linear /dev/ram1 0` on a line below it, whose START is where the first one ends; the two LENGTHs are 6 together
groups_past_three         | table | 0 8 delay /dev/ram0 0 1 /dev/ram0 0 2 /dev/ram0 0 3 /dev/ram0 0 4 | table t 1 Args | told | a delay line has at most three groups
feature_named_error       | table | 0 8 flakey /dev/ram0 0 5 5 1 error | table t 1 Feature | mended | without features all requests fail in its DOWN seconds, so leave these words off; error_reads and error_writes fail one kind alone
values_before_the_device  | table | 0 8 flakey 5 5 /dev/ram0 0 | table t 1 Number | mended | Write on line 2: 0 8 flakey /dev/ram0 0 5 5
direction_in_a_word       | table | 0 8 flakey /dev/ram0 0 5 5 5 corrupt_bio_byte 32 read 1 0 | table t 1 Value | mended | corrupt_bio_byte 32 r 1 0
value_in_hexadecimal      | table | 0 8 flakey /dev/ram0 0 5 5 5 corrupt_bio_byte 32 r 0xff 0 | table t 1 Value | mended | corrupt_bio_byte 32 r 255 0
block_below_a_sector      | table | 0 8 dust /dev/ram0 0 256 | table t 1 BlockSize | mended | Write on line 2: 0 8 dust /dev/ram0 0 512
status_of_dmsetup         | table | m: 0 8 linear | table t 1 Number | told | `dmsetup status` prints no device
offset_in_bytes           | bundle | == table t ; 0 8 linear /dev/ram0 8192 ; == script ; ram 0 64 ; create m t ; replay | script 2 V4 | asked | On line 2: `0 8 linear /dev/ram0 16`? On line 4: `ram 0 8200`?
comment_of_two_slashes    | script | // the disk ; ram 0 8 ; create m t ; replay | script 1 BadLine | mended | the first byte of a comment is `#`. Write on line 4: # the disk
line_of_hyphens           | table | 0 8 linear /dev/ram0 0 ; ---- | table t 2 Args | mended | no line parts or ends the lines of a part: it ends where the next heading stands. Leave line 3 blank
heading_of_an_end         | bundle | == table t ; 0 8 zero ; == end ; == script ; create m t ; replay | bundle 3 BadHeading | mended | Leave line 3 blank
headings_as_comments      | bundle | # table t ; 0 8 zero ; # script ; create m t ; replay | bundle 2 Stray | mended | a heading begins with the two marks `==`. Write on line 1: == table t
heading_of_fio            | bundle | == fio a ; fio version 2 iolog ; == script ; replay | bundle 1 BadHeading | mended | Write on line 1: == log a
sectors_as_a_word         | script | ram 0 8 sectors ; create m t ; replay | script 1 BadLine | mended | Write on line 4: ram 0 8
disk_of_a_module          | script | modprobe brd rd_nr=1 rd_size=4 ; ram 0 8 ; create m t ; replay | script 1 BadLine | mended | Leave line 4 blank
disk_with_a_colon         | script | ram0: 8 ; create m t ; replay | script 1 BadLine | mended | Write on line 4: ram 0 8
table_as_an_input         | script | ram 0 8 ; create m < t ; replay | script 2 BadLine | mended | Write on line 5: create m t
table_behind_its_word     | script | ram 0 8 ; create m table t ; replay | script 2 BadLine | mended | Write on line 5: create m t
device_to_be_read         | script | ram 0 8 ; create -r m t ; replay | script 2 BadLine | mended | there is no `--readonly`. Write on line 5: create m t
table_called_notable      | bundle | == table t ; 0 8 zero ; == script ; create m notable ; load m t ; resume m ; replay | script 1 V1 | mended | Write on line 4: create m --notable
resume_with_a_table       | script | ram 0 8 ; create m t ; resume m t ; replay | script 3 BadLine | told | to change the table of a device, write `load m t` and below it `resume m`
removed_by_rm             | script | ram 0 8 ; create m t ; replay ; wait ; rm m | script 5 BadLine | mended | Write on line 8: remove m
started_by_run            | script | ram 0 8 ; create m t ; run | script 3 BadLine | mended | Write on line 6: replay
written_by_dd             | script | ram 0 8 ; create m t ; dd if=/dev/zero of=/dev/mapper/m count=1 ; replay | script 3 BadLine | told | a script reads and writes nothing: this stands in a log
run_by_fio                | script | ram 0 8 ; create m t ; fio --read_iolog=a ; replay | script 3 BadLine | mended | Leave line 6 blank
loop_of_a_shell           | script | for i in 0 1 ; ram 0 8 ; create m t ; replay | script 1 BadLine | told | a script has no loops and no conditions
variable_of_a_shell       | script | SIZE=8 ; ram 0 8 ; create m t ; replay | script 1 BadLine | mended | a script has no words of a shell: write numbers and names where they are used, and leave this line out. Leave line 4 blank
commands_joined_by_and    | script | ram 0 8 && create m t ; replay | script 1 BadLine | told | write `ram 0 8` here, and `create m t` on lines of their own below it
dmsetup_with_an_option    | script | ram 0 8 ; dmsetup -y create m t ; replay | script 2 BadLine | mended | Write on line 5: create m t
dmsetup_by_its_path       | script | ram 0 8 ; sudo /sbin/dmsetup create m t ; replay | script 2 BadLine | mended | Write on line 5: create m t
dmsetup_that_lists        | script | ram 0 8 ; create m t ; replay ; dmsetup ls | script 4 BadLine | told | dmsetup's info, ls and deps are no commands here
removed_before_its_wait   | script | ram 0 8 ; create m t ; replay ; remove m ; wait | script 4 V8 | told | the `wait` of line 8 comes too late, so move it above this one
sleep_of_1e6              | script | ram 0 8 ; create m t ; replay ; sleep 1e6 | script 4 BadLine | mended | Write on line 7: sleep 1000000
message_of_add            | bundle | == table t ; 0 8 dust /dev/ram0 0 512 ; == script ; ram 0 8 ; create m t ; message m 0 add 3 ; replay | script 3 V9 | mended | message m 0 addbadblock 3
block_in_hexadecimal      | bundle | == table t ; 0 8 dust /dev/ram0 0 512 ; == script ; ram 0 8 ; create m t ; message m 0 addbadblock 0x3 ; replay | script 3 V9 | mended | message m 0 addbadblock 3
blocks_as_a_range         | bundle | == table t ; 0 8 dust /dev/ram0 0 512 ; == script ; ram 0 8 ; create m t ; message m 0 addbadblock 3-5 ; replay | script 3 V9 | told | `3-5` is no block: a message has the number of one block
blocks_behind_a_comma     | bundle | == table t ; 0 8 dust /dev/ram0 0 512 ; == script ; ram 0 8 ; create m t ; message m 0 addbadblock 1,2 ; replay | script 3 V9 | told | each other block takes a line of its own
message_as_a_command      | bundle | == table t ; 0 8 dust /dev/ram0 0 512 ; == script ; ram 0 8 ; create m t ; addbadblock m 3 ; replay | script 3 BadLine | mended | message m 0 addbadblock 3
sector_behind_its_word    | bundle | == table t ; 0 8 dust /dev/ram0 0 512 ; == script ; ram 0 8 ; create m t ; message m enable 0 ; replay | script 3 BadLine | mended | Write on line 6: message m 0 enable
message_in_quotes         | bundle | == table t ; 0 8 dust /dev/ram0 0 512 ; == script ; ram 0 8 ; create m t ; message m 0 "addbadblock 3" ; replay | script 3 V9 | mended | Write on line 6: message m 0 addbadblock 3
message_to_another_line   | bundle | == table t ; 0 4 linear /dev/ram0 0 ; 4 4 dust /dev/ram0 4 512 ; == script ; ram 0 8 ; create m t ; message m 0 addbadblock 1 ; replay | script 3 V9 | mended | Write on line 7: message m 4 addbadblock 1
length_of_eight_sectors   | use | write 0 8 | log a 4 Unaligned | mended | Write on line 11: /dev/mapper/m write 0 4096
range_behind_a_comma      | use | write 0,512 | log a 4 BadLine | mended | Write on line 11: /dev/mapper/m write 0 512
range_with_names          | use | write offset=0 length=512 | log a 4 BadLine | mended | Write on line 11: /dev/mapper/m write 0 512
action_of_blktrace        | use | W 0 512 | log a 4 BadLine | mended | Write on line 11: /dev/mapper/m write 0 512
count_behind_a_read       | use | read 0 512 x3 | log a 4 BadLine | mended | a line has at most four words, and is done once
job_file_in_a_log         | log | [global] ; ioengine=libaio | log a 1 Header | told | this is a line of a job file of fio, and no log
blkparse_in_a_log         | log | 8,0 3 1 0.000000000 697 G W 223490 + 8 [kjournald] | log a 1 Header | told | this is a line of blkparse, and no log
latencies_in_a_log        | log | 0, 61520, 1, 4096, 0, 0 ; 1, 60100, 1, 4096, 0, 0 | log a 1 Header | told | this is a latency, bandwidth or IOPS log of fio, and a log of a bundle is an iolog, as `--write_iolog=FILE` writes it.
bandwidths_below_a_header | log | fio version 2 iolog ; 0, 61520, 1, 4096 | log a 2 BadLine | told | this is a latency, bandwidth or IOPS log of fio
target_near_to_another    | table | 0 8 mirror core 1 1024 2 /dev/ram0 0 /dev/ram1 0 | table t 1 Unknown | told | mirror is a target of Linux that dmlab lacks
headings_without_marks    | bundle | table t ; 0 8 zero ; script ; create m t ; replay | bundle 1 Stray | mended | a heading's first two bytes are `==`. Write on line 1: == table t
heading_of_a_name_alone   | bundle | == t ; 0 8 zero ; == script ; create m t ; replay | bundle 1 BadHeading | mended | Write on line 1: == table t
resume_of_an_input        | script | ram 0 8 ; create m t ; resume m < t ; replay | script 3 BadLine | told | write `load m t` and below it `resume m`
blocks_by_dmsetup         | bundle | == table t ; 0 8 dust /dev/ram0 0 512 ; == script ; ram 0 8 ; create m t ; dmsetup message m 0 addbadblock 1 2 3 ; replay | script 3 BadLine | told | several blocks take several lines
rows_of_one_start         | table | 0 4 linear /dev/ram0 0 0 4 zero | table t 1 Args | told | write `0 4 linear /dev/ram0 0` here, and `0 4 zero` on a line below it
delays_by_their_names     | table | 0 8 delay /dev/ram0 0 read=100 write=200 | table t 1 Args | mended | Write on line 2: 0 8 delay /dev/ram0 0 100 /dev/ram0 0 200
delay_before_the_device   | table | 0 8 delay 100 ms /dev/ram0 0 | table t 1 Args | mended | Write on line 2: 0 8 delay /dev/ram0 0 100
count_that_stands_twice   | table | 0 8 flakey /dev/ram0 0 5 5 1 1 drop_writes | table t 1 Args | mended | 0 5 5 1 drop_writes
message_in_a_table        | table | 0 8 dust /dev/ram0 0 512 addbadblock 3 | table t 1 Args | mended | dust's messages stand in the script, as `message NAME SECTOR addbadblock N`, and not in its table's line
names_before_all_values   | table | start=0 length=8 type=linear device=/dev/ram0 offset=0 | table t 1 Number | mended | Write on line 2: 0 8 linear /dev/ram0 0
commands_in_a_list        | script | - ram 0 8 ; - create m t ; - replay | script 1 BadLine | mended | nothing stands before a line's first word: no mark, no number and no prompt
commands_that_are_counted | script | 1. ram 0 8 ; 2. create m t ; 3. replay | script 1 BadLine | mended | Write on line 4: ram 0 8
command_behind_a_prompt   | script | ram 0 8 ; root@host:~# dmsetup create m t ; replay | script 2 BadLine | mended | Write on line 5: create m t
disks_on_one_line         | script | ram 0 1 8 ; create m t ; replay | script 1 BadLine | told | it is `ram N SECTORS`
device_with_its_type      | script | ram 0 8 ; create m linear /dev/ram0 ; replay | script 2 BadLine | told | it is `create NAME TABLE`
suspended_and_resumed     | script | ram 0 8 ; create m t ; suspend m and resume m ; replay | script 3 BadLine | told | write `suspend m` here, and `resume m` on lines of their own below it
lower_device_in_use       | bundle | == table low ; 0 8 zero ; == table t ; 0 8 linear /dev/mapper/low 0 ; == script ; create low low ; create m t ; remove low ; replay | script 3 V8 | told | the device m, which line 7 creates, is laid on low: write `remove m` before this line, or leave it out
range_of_bytes            | use | write 0..511 | log a 4 BadLine | mended | Write on line 11: /dev/mapper/m write 0 512
sector_behind_a_length    | use | write 0 1 sector | log a 4 BadLine | mended | Write on line 11: /dev/mapper/m write 0 512
header_in_capitals        | log | Fio Version 2 Iolog ; /dev/mapper/m add ; /dev/mapper/m open | log a 1 Header | mended | Write on line 8: fio version 2 iolog
line_of_no_log            | audit | == script ; replay ; == log a ; fio version 2 iolog ; == history ; control ; line 2 | not a run at 2 | told | the logs are counted from 1, and the bundle has 1
release_of_what_runs      | audit | == table t ; 0 8 linear /dev/ram0 0 ; == script ; ram 0 8 ; create m t ; replay ; == log a ; fio version 2 iolog ; /dev/mapper/m add ; /dev/mapper/m open ; /dev/mapper/m write 0 512 ; == history ; control ; control ; line 1 ; line 1 ; line 1 ; map 1 ; release 2 ; serve 2 ; finish 1 | not a run at 7 | told | `release` is for a bio that is held, as by a delay line
event_behind_a_point      | audit | == script ; ram 0 8 ; replay ; == history ; 1. control | history 1 BadLine | mended | Write on line 5: control
last_sectors_for_lengths  | table | 0 3 linear /dev/ram0 0 ; 4 7 flakey /dev/ram0 4 5 5 1 drop_writes | table t 2 Gap | mended | so line 3 becomes `4 4 flakey /dev/ram0 4 5 5 1 drop_writes`. Write on line 2: 0 4 linear /dev/ram0 0
last_sector_for_a_length  | bundle | == table t ; 0 7 linear /dev/ram0 0 ; == script ; ram 0 8 ; create m t ; replay ; == log a ; fio version 2 iolog ; /dev/mapper/m add ; /dev/mapper/m open ; /dev/mapper/m write 3584 512 | log a 4 V14 | mended | Write on line 2: 0 8 linear /dev/ram0 0
suspend_without_a_flush   | script | ram 0 8 ; create m t ; replay ; suspend --noflush m ; resume m | script 4 BadLine | mended | dmlab has no `--noflush`: its `suspend` lets held requests go, and waits for all that are in flight. Write on line 7: suspend m
suspend_with_two_options  | script | ram 0 8 ; create m t ; replay ; dmsetup suspend --nolockfs --noflush m ; resume m | script 4 BadLine | mended | dmlab has no `--nolockfs`: no file system stands on its devices, so there is none to lock; dmlab has no `--noflush`
remove_by_force           | script | ram 0 8 ; create m t ; replay ; wait ; remove --force m | script 5 BadLine | mended | dmlab has no `--force`: a device in use isn't removed
create_with_a_uuid        | script | ram 0 8 ; create m --uuid lab-1 t ; replay | script 2 BadLine | mended | dmlab has no `--uuid`: a device has its name alone
load_of_the_live_table    | script | ram 0 8 ; create m t ; replay ; load m ; resume m | script 4 BadLine | told | t is live already
load_near_the_live_table  | script | ram 0 8 ; create m t ; replay ; load m t2 ; resume m | script 4 V1 | told | the bundle has no part `== table t2`
heading_with_a_device     | bundle | == table t ; 0 8 linear /dev/ram0 0 ; == script ; ram 0 8 ; create m t ; replay ; == log a /dev/mapper/m ; fio version 2 iolog ; /dev/mapper/m add ; /dev/mapper/m open ; /dev/mapper/m write 0 512 | bundle 7 BadHeading | mended | each line of a log names its device itself, as its first word
half_a_second_of_flakey   | table | 0 8 flakey /dev/ram0 0 0.5 0.5 1 drop_writes | table t 1 Number | told | for a shorter time the script has `sleep 500000`, in microseconds
blank_before_a_header     | bundle | == table t ; 0 8 linear /dev/ram0 0 ; == script ; ram 0 8 ; create m t ; replay ; == log a ;  ; fio version 2 iolog ; /dev/mapper/m add ; /dev/mapper/m open ; /dev/mapper/m write 0 512 | log a 1 Header | told | delete the blank lines and comments between the two, up to line 8
comment_before_a_header   | log | # the log ; fio version 2 iolog ; /dev/mapper/m add ; /dev/mapper/m open | log a 1 Header | told | delete the blank lines and comments between the two, up to line 8
command_at_a_time         | script | ram 0 8 ; create m t ; replay ; at 5s load m t ; resume m | script 4 BadLine | told | write `sleep 5000000` on this line, in microseconds from the line before it, and `load m t` on a line of its own
command_after_a_time      | script | ram 0 8 ; create m t ; replay ; load m t after 200 ms ; resume m | script 4 BadLine | told | write `sleep 200000` on this line
disk_behind_commands      | script | ram 0 8 ; create m t ; replay ; ram 1 8 | script 4 BadLine | told | move this line above line 5
offset_that_fits          | use | write 4096 512 | log a 4 V14 | told | the last offset for 512 bytes is 3584
seconds_by_their_names    | table | 0 8 flakey /dev/ram0 0 up=5 down=5 drop_writes | table t 1 Number | mended | DEVICE OFFSET UP DOWN [COUNT FEATURES]. Write on line 2: 0 8 flakey /dev/ram0 0 5 5 1 drop_writes
table_that_is_wiped       | script | ram 0 8 ; create m t ; replay ; wipe_table m | script 4 BadLine | told | write `0 8 error` under a heading `== table TABLE`, here `load m TABLE`, and below it `resume m`
line_of_marks             | script | ram 0 8 ; create m t ; replay ; } | script 4 BadLine | mended | Leave line 7 blank
suspend_of_two_devices    | script | ram 0 8 ; create m t ; create n t ; replay ; suspend m n ; resume m ; resume n | script 5 BadLine | told | write `suspend m` on this line, and `suspend n` on a line of its own below it
suspend_for_a_time        | script | ram 0 8 ; create m t ; replay ; suspend m for 5 s | script 4 BadLine | told | below it `sleep 5000000`, in microseconds, and `resume m`
half_a_second_by_a_unit   | table | 0 8 flakey /dev/ram0 0 500ms 500ms 1 drop_writes | table t 1 Number | told | for a shorter time the script has `sleep 500000`
dust_that_is_enabled      | table | 0 8 dust /dev/ram0 0 512 fail_read_on_bad_block | table t 1 Args | mended | `message NAME SECTOR enable` in the script lets its bad blocks fail
flakey_that_fails_writes  | table | 0 8 flakey /dev/ram0 0 5 5 1 fail_writes | table t 1 Feature | mended | Write on line 2: 0 8 flakey /dev/ram0 0 5 5 1 error_writes
load_of_a_table_alone     | bundle | == table t ; 0 8 linear /dev/ram0 0 ; == table bad ; 0 8 error ; == script ; ram 0 8 ; create m t ; replay ; load bad ; resume m ; == log a ; fio version 2 iolog | script 4 BadLine | mended | Write on line 9: load m bad
device_that_comes_later   | bundle | == table t ; 0 8 linear low 0 ; == table l ; 0 8 linear /dev/ram0 0 ; == script ; ram 0 8 ; create m t ; create low l ; replay ; == log a ; fio version 2 iolog | script 2 V1 | told | names low: a bundle has no such device
device_that_is_renamed    | script | ram 0 8 ; create m t ; replay ; rename m n | script 4 BadLine | mended | a device keeps its NAME, and no command changes it: to name it n, write n for m on line 5, which creates it
device_that_is_paused     | script | ram 0 8 ; create m t ; replay ; pause m ; resume m | script 4 BadLine | mended | Write on line 7: suspend m
command_behind_a_time     | script | ram 0 8 ; create m t ; replay ; 5s: suspend m ; resume m | script 4 BadLine | told | write `sleep 5000000` on this line, in microseconds from the line before it, and `suspend m` on a line of its own
# ---- names in letters of another case
device_in_capitals        | bundle | == table t ; 0 8 zero ; == script ; create top t ; status TOP ; replay | script 2 V1 | told | no device TOP stands here, but top, which line 4 creates: capital and small letters are different in a name.
device_with_a_capital     | bundle | == table t ; 0 8 zero ; == script ; create top t ; status Top ; replay | script 2 V1 | mended | Write on line 5: status top
device_near_to_another    | bundle | == table t ; 0 8 zero ; == script ; create top t ; create TAP t ; status TOP ; replay | script 3 V1 | told | no device TOP stands here, but top, which line 4 creates
disk_in_capitals          | table | 0 8 linear /DEV/RAM0 0 | script 2 V1 | told | no disk RAM0 stands here, but /dev/ram0, which line 4 makes: capital and small letters are different in a name.
disk_with_a_capital       | table | 0 8 linear /dev/Ram0 0 | script 2 V1 | mended | Write on line 2: 0 8 linear /dev/ram0 0
file_in_capitals          | bundle | == table t ; 0 8 zero ; == script ; create top t ; replay ; == log a ; fio version 2 iolog ; /DEV/MAPPER/TOP add | log a 2 V12 | told | no device TOP stands at `replay`, but top, which line 4 creates
table_all_in_capitals     | bundle | == table tab ; 0 8 linear /dev/ram0 0 ; == script ; ram 0 8 ; create m TAB ; replay | script 2 V1 | told | the bundle has no part `== table TAB`, but `== table tab`
# ---- numbers above a limit
sleep_of_2h               | script | ram 0 8 ; create m t ; replay ; sleep 2h | script 4 BadLine | told | word 2 of the line stands for 7200000000 microseconds, 3600000000 more than the limit: a `sleep` is at most 3600000000 microseconds
sleep_of_2_h              | script | ram 0 8 ; create m t ; replay ; sleep 2 h | script 4 BadLine | told | word 2 of the line stands for 7200000000 microseconds, 3600000000 more than the limit
sleep_of_1h               | script | ram 0 8 ; create m t ; replay ; sleep 1h | script 4 BadLine | mended | Write on line 7: sleep 3600000000
wait_of_2h                | use | wait 2h 0 | log a 4 BadLine | told | word 3 of the line stands for 7200000000 microseconds, 3600000000 more than the limit: a `wait` is at most 3600000000 microseconds
wait_of_1h                | use | wait 1h 0 | log a 4 BadLine | mended | Write on line 11: /dev/mapper/m wait 3600000000 0
wait_of_2h_in_a_script    | script | ram 0 8 ; create m t ; replay ; wait 2h | script 4 BadLine | told | word 2 of the line stands for 7200000000 microseconds, 3600000000 more than the limit: `wait` has no time behind it
disk_of_1g                | script | ram 0 1G ; create m t ; replay | script 1 BadLine | told | word 3 of the line stands for 2097152 sectors, 2031616 more than the limit: all disks of a bundle have at most 65536 sectors together
disk_of_32m               | script | ram 0 32M ; create m t ; replay | script 1 BadLine | mended | Write on line 4: ram 0 65536
delay_of_5000000          | table | 0 8 delay /dev/ram0 0 5 /dev/ram0 0 5000000 | table t 1 TooLong | mended | word 9 of the line stands for 5000000 milliseconds, 1400000 more than the limit: a delay is at most 3600000 milliseconds
block_of_2g               | table | 0 8 dust /dev/ram0 0 2147483648 | table t 1 BlockSize | told | word 6 of the line stands for 2147483648 bytes, 1073741824 more than the limit
write_of_2m               | use | write 0 2M | log a 4 BadLine | told | word 4 of the line stands for 2097152 bytes, 1048576 more than the limit: an operation has at most 1048576 bytes
chance_above_all          | table | 0 8 flakey /dev/ram0 0 0 1 2 random_read_corrupt 2000000000 | table t 1 Value | told | word 10 of the line stands for 2000000000, 1000000000 more than the limit
# ---- devices behind their offsets
delay_behind_its_offset   | table | 0 8 delay 0 /dev/ram0 5 | table t 1 Number | mended | Write on line 2: 0 8 delay /dev/ram0 0 5
delays_behind_offsets     | table | 0 8 delay 0 1:0 5 0 1:0 6 | table t 1 Number | mended | Write on line 2: 0 8 delay 1:0 0 5 1:0 0 6
delay_of_either_order     | table | 0 4 delay 4 /dev/ram0 2 | table t 1 Number | asked | On line 2: `0 4 delay /dev/ram0 4 2`? On line 2: `0 4 delay /dev/ram0 2 4`?
delay_before_its_device   | table | 0 8 delay 100 /dev/ram0 0 | table t 1 Number | mended | Write on line 2: 0 8 delay /dev/ram0 0 100
flakey_behind_its_offset  | table | 0 8 flakey 0 /dev/ram0 5 1 | table t 1 Number | mended | Write on line 2: 0 8 flakey /dev/ram0 0 5 1
flakey_behind_its_times   | table | 0 8 flakey 5 1 /dev/ram0 0 | table t 1 Number | mended | Write on line 2: 0 8 flakey /dev/ram0 0 5 1
dust_behind_its_offset    | table | 0 8 dust 0 /dev/ram0 512 | table t 1 Number | mended | Write on line 2: 0 8 dust /dev/ram0 0 512
dust_behind_its_block     | table | 0 8 dust 512 /dev/ram0 0 | table t 1 Number | mended | Write on line 2: 0 8 dust /dev/ram0 0 512
# ---- lines in another order, and lines that stand twice
lines_of_two_exchanged    | table | 4 4 zero ; 0 4 linear /dev/ram0 0 | table t 1 Gap | told | a table's lines stand in the order of their starts: line 2 of the part belongs before line 1.
line_behind_the_next_one  | table | 0 2 zero ; # x ; 4 4 zero ; 2 2 linear /dev/ram0 0 | table t 3 Gap | told | line 4 of the part belongs before line 3.
lines_of_no_order         | table | 4 4 zero ; 0 3 linear /dev/ram0 0 | table t 1 Gap | mended | each other one where the line before it ends. Write on line 2: 0 4 zero
line_pasted_twice         | table | 0 8 linear /dev/ram0 0 ; 0 8 linear /dev/ram0 0 | table t 2 Gap | mended | the line stands twice in its table, here and on line 2: leave one of the two out. Leave line 3 blank
line_of_another_offset    | table | 0 4 linear /dev/ram0 0 ; 0 4 linear /dev/ram0 4 | table t 2 Gap | mended | each other one where the line before it ends. Write on line 3: 4 4 linear /dev/ram0 4
wait_before_and_behind    | script | ram 0 8 ; create m t ; wait ; replay ; wait | script 3 V10 | mended | Leave line 6 blank
table_with_its_line       | script | ram 0 8 ; create m t ; replay ; table m 0 8 linear /dev/ram0 0 | script 4 BadLine | told | `table m` shows the lines of the live table, and takes none: a table's lines stand in a part of their own
table_with_a_path         | script | ram 0 8 ; create m t ; replay ; table /dev/mapper/m | script 4 BadLine | mended | Write on line 7: table m
# ---- offsets that are left out
offset_of_the_next_line   | table | 0 4 linear /dev/ram0 0 ; 4 4 linear /dev/ram0 | table t 2 Args | mended | Write on line 3: 4 4 linear /dev/ram0 4
offset_behind_another     | table | 0 4 zero ; 4 4 linear /dev/ram0 | table t 2 Args | told | the OFFSET seems to be left out, the sector of DEVICE at which the line begins there, and the lines before this one don't show which one follows
offset_past_its_disk      | table | 0 4 linear /dev/ram0 4 ; 4 4 linear /dev/ram0 | table t 2 Args | told | the OFFSET seems to be left out
offset_of_no_order        | table | 0 2 linear /dev/ram0 4 ; 2 2 linear /dev/ram0 0 ; 4 4 linear /dev/ram0 | table t 3 Args | told | the OFFSET seems to be left out, the sector of DEVICE at which the line begins there, and the lines before this one don't show which one follows
dust_of_the_next_line     | table | 0 4 dust /dev/ram0 0 512 ; 4 4 dust /dev/ram0 512 | table t 2 Args | mended | Write on line 3: 4 4 dust /dev/ram0 4 512
dust_behind_a_zero        | table | 0 4 zero ; 4 4 dust /dev/ram0 512 | table t 2 Args | told | the OFFSET seems to be left out, the sector of DEVICE at which the line begins there, and the lines before this one don't show which one follows
# ---- what another tool takes: names with blanks, hexadecimal values, fields before a line, dd, disks of a host
name_with_a_blank         | bundle | == table t ; 0 8 zero ; == script ; create "my disk" t ; status 'my disk' ; replay | script 1 BadLine | mended | a NAME has no blanks and no quotes: it has 1 to 32 letters, digits, `_`, `.` and `-`, and each line that names the device has it so. Write on line 4: create my_disk t
name_in_quotes_alone      | script | ram 0 8 ; create "m" t ; replay | script 2 BadLine | mended | Write on line 5: create m t
value_in_two_letters      | table | 0 8 flakey /dev/ram0 0 0 1 5 corrupt_bio_byte 1 w ff 0 | table t 1 Value | mended | `ff` is no number; a value is 0 to 255, in decimal digits: ff is 255 in them. Write on line 2: 0 8 flakey /dev/ram0 0 0 1 5 corrupt_bio_byte 1 w 255 0
value_of_digit_and_letter | table | 0 8 flakey /dev/ram0 0 0 1 5 corrupt_bio_byte 1 r 1f 0 | table t 1 Value | mended | corrupt_bio_byte 1 r 31 0
value_of_no_digits        | table | 0 8 flakey /dev/ram0 0 0 1 5 corrupt_bio_byte 1 w zz 0 | table t 1 Value | told | corrupt_bio_byte takes a byte from 1 on
value_of_three_digits     | table | 0 8 flakey /dev/ram0 0 0 1 5 corrupt_bio_byte 1 w 1ff 0 | table t 1 Value | told | corrupt_bio_byte takes a byte from 1 on
load_without_a_create     | script | ram 0 8 ; load m t ; resume m ; replay | script 2 V1 | mended | no device m stands here; a device is made by `create NAME TABLE`, and `load` gives it another table. Write on line 5: create m t
resume_without_a_create   | script | ram 0 8 ; resume m ; replay | script 2 V1 | mended | Write before line 5: create m t
remove_without_a_create   | script | ram 0 8 ; create m t ; remove quit ; replay | script 3 V1 | told | no device quit stands here, but only m.
fields_of_concise         | table | m,,0,rw,0 8 linear /dev/ram0 0 | table t 1 Number | mended | `dmsetup table --concise` prints a device's name, UUID, number and mode before a line
fields_of_a_kernel        | table | dm-mod.create="lroot,,,rw, 0 8 linear 1:0 0" | table t 1 Number | mended | Write on line 2: 0 8 linear 1:0 0
offset_in_letters         | table | 0 8 linear /dev/ram0 begin | table t 1 Number | told | word 5, `begin`, is no number; word 5 is the OFFSET, a number of sectors in plain decimal digits: it is `START LENGTH linear DEVICE OFFSET`
delay_in_letters          | table | 0 8 delay /dev/ram0 0 slow | table t 1 Number | told | word 6, `slow`, is no number; word 6 is the time of the delay, a number of milliseconds in plain decimal digits: it is
count_in_letters          | table | 0 8 flakey /dev/ram0 0 5 1 some error_reads | table t 1 Number | told | word 8, `some`, is no number; flakey's features have their number of words before them
write_past_a_short_table  | bundle | == table t ; 0 8 linear /dev/ram0 0 ; == script ; ram 0 24 ; create m t ; replay ; == log a ; fio version 2 iolog ; /dev/mapper/m add ; /dev/mapper/m open ; /dev/mapper/m write 4096 4096 | log a 4 V14 | asked | or make the table longer: /dev/ram0 has more sectors than line 2 takes. Which is meant? On line 2: `0 24 linear /dev/ram0 0`? On line 11: `/dev/mapper/m write 0 4096`?
write_past_two_lines      | bundle | == table t ; 0 4 linear /dev/ram0 0 ; 4 4 linear /dev/ram0 8 ; == script ; ram 0 24 ; create m t ; replay ; == log a ; fio version 2 iolog ; /dev/mapper/m add ; /dev/mapper/m open ; /dev/mapper/m write 4096 1024 | log a 4 V14 | asked | On line 3: `4 6 linear /dev/ram0 8`? On line 12: `/dev/mapper/m write 3072 1024`?
write_past_the_disk_too   | bundle | == table t ; 0 8 linear /dev/ram0 0 ; == script ; ram 0 12 ; create m t ; replay ; == log a ; fio version 2 iolog ; /dev/mapper/m add ; /dev/mapper/m open ; /dev/mapper/m write 4096 4096 | log a 4 V14 | told | the last offset for 4096 bytes is 0.
end_for_a_length          | bundle | == table t ; 0 16 linear /dev/ram0 0 ; == script ; ram 0 16 ; create m t ; replay ; == log a ; fio version 2 iolog ; /dev/mapper/m add ; /dev/mapper/m open ; /dev/mapper/m write 4096 8192 | log a 4 V14 | asked | the last number is a LENGTH, not an end. Which is meant? On line 11: `/dev/mapper/m write 4096 4096`? On line 11: `/dev/mapper/m write 0 8192`?
end_or_a_longer_table     | bundle | == table t ; 0 16 linear /dev/ram0 0 ; == script ; ram 0 64 ; create m t ; replay ; == log a ; fio version 2 iolog ; /dev/mapper/m add ; /dev/mapper/m open ; /dev/mapper/m write 4096 8192 | log a 4 V14 | asked | On line 2: `0 64 linear /dev/ram0 0`? On line 11: `/dev/mapper/m write 4096 4096`? On line 11: `/dev/mapper/m write 0 8192`?
offset_behind_the_end     | bundle | == table t ; 0 16 linear /dev/ram0 0 ; == script ; ram 0 16 ; create m t ; replay ; == log a ; fio version 2 iolog ; /dev/mapper/m add ; /dev/mapper/m open ; /dev/mapper/m write 8192 4096 | log a 4 V14 | told | the last offset for 4096 bytes is 4096.
removes_in_a_wrong_order  | bundle | == table low ; 0 8 zero ; == table t ; 0 8 linear /dev/mapper/low 0 ; == script ; create low low ; create m t ; remove low ; remove m ; replay | script 3 V8 | told | the device m, which line 7 creates, is laid on low, and goes first: exchange this line and line 9, so that `remove m` stands on line 8 and `remove low` on line 9.
rename_of_no_device       | script | ram 0 8 ; create m t ; replay ; rename quit n | script 4 BadLine | told | dmsetup's command is none here
blocks_of_dd              | log | fio version 2 iolog ; /dev/mapper/m add ; /dev/mapper/m open ; dd if=/dev/zero of=/dev/mapper/m bs=512 count=2 seek=4 | log a 4 BadLine | mended | a log runs no program: what dd does is a line of FILE, read or write, OFFSET and LENGTH, the two in bytes. Write on line 11: /dev/mapper/m write 2048 1024
blocks_read_by_dd         | log | fio version 2 iolog ; /dev/mapper/m add ; /dev/mapper/m open ; sudo dd if=/dev/mapper/m of=/dev/null bs=1k skip=1 count=2 | log a 4 BadLine | mended | Write on line 11: /dev/mapper/m read 1024 2048
dd_of_a_file              | log | fio version 2 iolog ; /dev/mapper/m add ; /dev/mapper/m open ; dd if=/dev/zero of=x bs=512 count=2 | log a 4 BadLine | told | a log runs no program: what dd does is a line of FILE, read or write, OFFSET and LENGTH, the two in bytes.
operation_of_dd           | script | ram 0 8 ; create m t ; dd if=/dev/zero of=/dev/mapper/m bs=4k count=1 ; replay | script 3 BadLine | told | this stands in a log, as `/dev/mapper/m write 0 4096` under `== log a`, and `replay` starts all logs
load_of_a_table_on_itself | bundle | == table t ; 0 8 zero ; == table u ; 0 8 linear /dev/mapper/m 0 ; == script ; ram 0 8 ; create m t ; load m u ; replay | script 3 V11 | told | line 4 of the bundle, table u line 1, `0 8 linear /dev/mapper/m 0`, names /dev/mapper/m: this `load` would lay the device m on itself, and a table names what is below its device; the disks of this bundle are /dev/ram0.
first_table_on_itself     | bundle | == table t ; 0 8 linear /dev/mapper/m 0 ; == script ; ram 0 8 ; create m --notable ; load m t ; resume m ; replay | script 3 V4 | told | names /dev/mapper/m: this `load` would lay the device m on itself, and a table names what is below its device; the disks of this bundle are /dev/ram0.
file_for_a_disk           | table | 0 8 linear /tmp/test.img 0 | script 2 V1 | mended | a bundle has no such device; its disks are /dev/ramN, made by `ram N SECTORS`, its mapped devices /dev/mapper/NAME, made by `create NAME TABLE`; the disks of this bundle are /dev/ram0. Write on line 2: 0 8 linear /dev/ram0 0
only_disk_with_room       | bundle | == table t ; 0 8 linear /dev/sda 0 ; == script ; ram 0 4 ; ram 1 8 ; create m t ; replay | script 3 V1 | mended | Write on line 2: 0 8 linear /dev/ram1 0
two_disks_with_room       | bundle | == table t ; 0 8 linear /dev/sda 0 ; == script ; ram 0 8 ; ram 1 8 ; create m t ; replay | script 3 V1 | told | the disks of this bundle are /dev/ram0, /dev/ram1.
# ---- a block counted from 1, a device pulled under its logs, a line that goes on, a partition, a name with a blank
block_counted_from_one    | bundle | == table t ; 0 64 dust /dev/ram0 0 4096 ; == script ; ram 0 64 ; create m t ; message m 0 addbadblock 8 ; replay | script 3 V9 | asked | On line 6: `message m 0 addbadblock 7`? On line 6: `message m 0 addbadblock 1`?
block_far_past_the_last   | bundle | == table t ; 0 64 dust /dev/ram0 0 4096 ; == script ; ram 0 64 ; create m t ; message m 0 addbadblock 9 ; replay | script 3 V9 | told | the highest block of the line is 7
device_pulled_under_a_log | bundle | == table t ; 0 8 zero ; == script ; create m t ; replay ; sleep 5 ; remove m ; wait ; == log a ; fio version 2 iolog ; /dev/mapper/m add ; /dev/mapper/m open ; /dev/mapper/m read 0 512 | script 4 V8 | told | it can't be removed under them: the `wait` of line 8 comes too late, so move it above this one; or, to let all requests from here on fail, write `load m TABLE` with a table of `error`, and below it `resume m`.
line_that_goes_on         | table | 0 8 flakey /dev/ram0 0 4 1 \\ ; 1 drop_writes | table t 1 Number | told   | write `0 8 flakey /dev/ram0 0 4 1 1 drop_writes` on this line, and leave line 3 blank.
partition_of_the_whole    | bundle | == table t ; 0 64 linear /dev/ram0 8 ; == script ; ram 0 64 ; create m t ; replay | script 2 V4 | asked | On line 2: `0 56 linear /dev/ram0 8`? On line 2: `0 64 linear /dev/ram0 0`? On line 4: `ram 0 72`?
line_wrapped_at_its_count | table | 0 8 flakey /dev/ram0 0 4 1 ; 1 drop_writes | table t 2 Args | told | line 3 seems to be the rest of line 2: write `0 8 flakey /dev/ram0 0 4 1 1 drop_writes` on line 2, and leave line 3 blank.
line_wrapped_at_a_feature | table | 0 8 flakey /dev/ram0 0 4 1 1 ; drop_writes | table t 1 Args | told | write `0 8 flakey /dev/ram0 0 4 1 1 drop_writes` on line 2, and leave line 3 blank.
line_wrapped_at_its_times | table | 0 8 flakey /dev/ram0 0 ; 5 5 1 drop_writes | table t 1 Args | told | write `0 8 flakey /dev/ram0 0 5 5 1 drop_writes` on line 2, and leave line 3 blank.
line_wrapped_at_a_device  | table | 0 8 linear ; /dev/ram0 0 | table t 1 Args | told | write `0 8 linear /dev/ram0 0` on line 2, and leave line 3 blank.
count_above_a_whole_line  | table | 0 4 flakey /dev/ram0 0 4 1 1 ; 4 4 zero | table t 1 Args | mended | Write on line 2: 0 4 flakey /dev/ram0 0 4 1 0
log_of_two_words          | bundle | == table t ; 0 8 zero ; == script ; create m t ; replay ; == log web server ; fio version 2 iolog | bundle 6 BadHeading | mended | Write on line 6: == log web_server
table_of_comments         | table | # 0 8 zero | table t 0 Empty | told | a table has at least one line, START LENGTH TYPE ARGUMENTS, as `0 8 linear /dev/ram0 0`
byte_of_writes_dropped    | table | 0 8 flakey /dev/ram0 0 1 1 6 drop_writes corrupt_bio_byte 1 w 255 0 | table t 1 Conflict | told | which is of writes, don't go together
# ---- a line that is lost, a disk that is meant, letters for digits, a feature for a type, a table's line in a log
line_lost_of_a_table      | table | 0 2 linear /dev/ram0 0 ; 4 2 error ; 6 2 zero | table t 2 Gap | told | no line has the sectors from 2 up to 4, and the line below fits this one, so a line seems to be lost before line 3: one that begins with `2 2`
line_that_starts_too_far  | table | 0 4 zero ; 5 4 zero | table t 2 Gap | asked | On line 3: `4 4 zero`?
first_disk_made_again     | bundle | == table t ; 0 4 linear /dev/ram0 0 ; 4 4 linear /dev/ram1 0 ; == script ; ram 0 4 ; ram 0 4 ; create m t ; replay | script 2 V2 | mended | Write on line 6: ram 1 4
letter_for_a_zero         | table | O 8 linear /dev/ram0 0 | table t 1 Number | mended | word 1, `O`, is no number; a letter stands in it that looks like a digit: O is no 0, and l and I are no 1. Write on line 2: 0 8 linear /dev/ram0 0
letter_in_an_offset       | table | 0 8 linear /dev/ram0 o | table t 1 Number | mended | Write on line 2: 0 8 linear /dev/ram0 0
feature_for_a_type        | table | 0 8 drop_writes /dev/ram0 0 5 5 | table t 1 Unknown | mended | drop_writes is a feature of flakey and no type: a line has the type flakey in its place, and the features last, with the number of their words before them. Write on line 2: 0 8 flakey /dev/ram0 0 5 5 1 drop_writes
chance_for_a_type         | table | 0 8 random_read_corrupt /dev/ram0 0 5 5 | table t 1 Unknown | told | random_read_corrupt is a feature of flakey and no type
table_line_in_a_log       | log | fio version 2 iolog ; 0 64 delay /dev/ram0 0 100 | log a 2 BadLine | mended | this is a line of a table: it stands below `== table NAME`, and a log has none. Leave line 9 blank
path_with_a_blank         | log | fio version 2 iolog ; /dev/mapper/m add ; /dev/mapper/m open ; /dev/mapper m write 0 4096 | log a 4 BadLine | mended | a path has no blank in it: the FILE is one word. Write on line 11: /dev/mapper/m write 0 4096
offset_is_the_start_again | bundle | == table t ; 0 4 linear /dev/ram0 0 ; 4 4 linear /dev/ram1 4 ; == script ; ram 0 4 ; ram 1 4 ; create m t ; replay | script 3 V4 | asked | On line 3: `4 4 linear /dev/ram1 0`? On line 6: `ram 1 8`?
# ---- headings with marks elsewhere, words too many, too few or exchanged
heading_behind_a_number   | bundle | 7 == table t ; 0 8 zero ; == script ; create m t ; replay | bundle 1 Stray | mended | Write on line 1: == table t
heading_round_its_marks   | bundle | table == t ; 0 8 zero ; == script ; create m t ; replay | bundle 1 Stray | mended | Write on line 1: == table t
heading_of_another_word   | bundle | g table t ; 0 8 zero ; == script ; create m t ; replay | bundle 1 Stray | mended | Write on line 1: == table t
remark_of_a_table         | bundle | a table t of zeroes ; == table t ; 0 8 zero ; == script ; create m t ; replay | bundle 1 Stray | mended | Write on line 1: # a table t of zeroes
script_before_its_marks   | bundle | == table t ; 0 8 zero ; script == ; create m t ; replay | bundle 0 NoScript | mended | Write on line 3: == script
marks_without_a_word      | bundle | == table t ; 0 8 zero ; == ; create m t ; replay | bundle 3 BadHeading | mended | Write on line 3: == script
marks_that_end_a_part     | bundle | == table t ; 0 8 zero ; == script ; create m t ; replay ; == | bundle 6 BadHeading | mended | Leave line 6 blank
name_twice_in_a_heading   | bundle | == table t t ; 0 8 zero ; == script ; create m t ; replay | bundle 1 BadHeading | mended | Write on line 1: == table t
kind_twice_in_a_heading   | bundle | == table table t ; 0 8 zero ; == script ; create m t ; replay | bundle 1 BadHeading | mended | Write on line 1: == table t
kind_left_out_of_a_log    | bundle | == script ; ram 0 8 ; replay ; == b ; fio version 2 iolog | bundle 4 BadHeading | mended | Write on line 4: == log b
offset_that_stands_twice  | use | write 512 512 1024                                 | log a 4 BadLine  | mended | Write on line 11: /dev/mapper/m write 512 1024
wait_of_no_time           | use | wait 0                                             | log a 4 BadLine  | told   | FILE wait MICROSECONDS 0.
length_that_stands_twice  | table | 0 8 8 linear /dev/ram0 0                         | table t 1 Unknown | mended | Write on line 2: 0 8 linear /dev/ram0 0
type_left_out             | table | 0 8 /dev/ram0 0                                  | table t 1 Unknown | mended | Write on line 2: 0 8 linear /dev/ram0 0
type_left_out_of_several  | table | 0 8 /dev/ram0 0 512                              | table t 1 Unknown | asked | On line 2: `0 8 dust /dev/ram0 0 512`? On line 2: `0 8 delay /dev/ram0 0 512`?
type_and_device_left_out  | table | 0 8                                              | table t 1 Args   | told | a table line is START LENGTH TYPE ARGUMENTS
verb_left_out_of_a_disk   | script | 0 8 ; create m t ; replay                       | script 1 BadLine | mended | Write on line 4: ram 0 8
verb_left_out_of_a_create | script | ram 0 8 ; m t ; replay                          | script 2 BadLine | mended | Write on line 5: create m t
verb_left_out_of_another  | script | ram 0 8 ; create m t ; m ; replay               | script 3 BadLine | told | the commands are ram, create
value_before_its_side     | table | 0 8 flakey /dev/ram0 0 0 1 5 corrupt_bio_byte 1 255 w 0 | table t 1 Value | mended | Write on line 2: 0 8 flakey /dev/ram0 0 0 1 5 corrupt_bio_byte 1 w 255 0
file_without_an_action    | log | fio version 2 iolog ; /dev/mapper/m add ; /dev/mapper/m ; /dev/mapper/m read 0 512 | log a 3 BadLine | mended | Write on line 10: /dev/mapper/m open
device_left_out_of_two    | bundle | == table t ; 0 8 linear 0 ; == script ; ram 0 8 ; ram 1 8 ; create m t ; replay | table t 1 Args | asked | On line 2: `0 8 linear /dev/ram0 0`? On line 2: `0 8 linear /dev/ram1 0`?
letters_of_blktrace       | use | WS 512 512                                         | log a 4 BadLine  | mended | `WS` are letters of blktrace, and a log has the action as a word: `write`
block_for_an_offset       | bundle | == table t ; 0 64 linear /dev/ram0 0 ; == script ; ram 0 64 ; create m t ; replay ; == log a ; fio version 2 iolog ; /dev/mapper/m add ; /dev/mapper/m open ; /dev/mapper/m write 3 4096 | log a 4 Unaligned | asked | block 3 of 4096 bytes begins at byte 12288, sector 3 at byte 1536. Which is meant? On line 11: `/dev/mapper/m write 12288 4096`? On line 11: `/dev/mapper/m write 1536 4096`?
sectors_for_both          | bundle | == table t ; 0 64 linear /dev/ram0 0 ; == script ; ram 0 64 ; create m t ; replay ; == log a ; fio version 2 iolog ; /dev/mapper/m add ; /dev/mapper/m open ; /dev/mapper/m write 8 8 | log a 4 Unaligned | mended | Write on line 11: /dev/mapper/m write 4096 4096
length_of_100_bytes       | bundle | == table t ; 0 64 linear /dev/ram0 0 ; == script ; ram 0 64 ; create m t ; replay ; == log a ; fio version 2 iolog ; /dev/mapper/m add ; /dev/mapper/m open ; /dev/mapper/m write 0 100 | log a 4 Unaligned | mended | so 100 bytes take a LENGTH of 512. Write on line 11: /dev/mapper/m write 0 512
flag_behind_a_write       | bundle | == table t ; 0 64 linear /dev/ram0 0 ; == script ; ram 0 64 ; create m t ; replay ; == log a ; fio version 2 iolog ; /dev/mapper/m add ; /dev/mapper/m open ; /dev/mapper/m write 4096 512 FUA | log a 4 BadLine | mended | in the place of `FUA` a flush stands on a line of its own, so write `/dev/mapper/m write 4096 512`, and below it `/dev/mapper/m sync 0 0`. Write on line 11: /dev/mapper/m write 4096 512
flush_before_a_write      | bundle | == table t ; 0 64 linear /dev/ram0 0 ; == script ; ram 0 64 ; create m t ; replay ; == log a ; fio version 2 iolog ; /dev/mapper/m add ; /dev/mapper/m open ; /dev/mapper/m write 4096 512 PREFLUSH | log a 4 BadLine | mended | and above it `/dev/mapper/m sync 0 0`. Write on line 11: /dev/mapper/m write 4096 512
flag_behind_a_read        | bundle | == table t ; 0 64 linear /dev/ram0 0 ; == script ; ram 0 64 ; create m t ; replay ; == log a ; fio version 2 iolog ; /dev/mapper/m add ; /dev/mapper/m open ; /dev/mapper/m read 4096 512 META | log a 4 BadLine | mended | a log has no flags of a request, so `META` is left out: `/dev/mapper/m read 4096 512`. Write on line 11: /dev/mapper/m read 4096 512
words_behind_an_open      | use | open 0 0 | log a 4 BadLine | mended | `0 0` is too much
pwrite_of_two_orders      | bundle | == table t ; 0 64 linear /dev/ram0 0 ; == script ; ram 0 64 ; create m t ; replay ; == log a ; fio version 2 iolog ; /dev/mapper/m add ; /dev/mapper/m open ; /dev/mapper/m pwrite 4096 8192 | log a 4 BadLine | asked | the call pwrite has its count before its offset, and a line of a log has FILE, write, OFFSET and LENGTH, the two in bytes. Which is meant? On line 11: `/dev/mapper/m write 8192 4096`? On line 11: `/dev/mapper/m write 4096 8192`?
pwrite_at_the_begin       | bundle | == table t ; 0 64 linear /dev/ram0 0 ; == script ; ram 0 64 ; create m t ; replay ; == log a ; fio version 2 iolog ; /dev/mapper/m add ; /dev/mapper/m open ; /dev/mapper/m pwrite 8192 0 | log a 4 BadLine | mended | Write on line 11: /dev/mapper/m write 0 8192
pread64_of_two_orders     | bundle | == table t ; 0 64 linear /dev/ram0 0 ; == script ; ram 0 64 ; create m t ; replay ; == log a ; fio version 2 iolog ; /dev/mapper/m add ; /dev/mapper/m open ; /dev/mapper/m pread64 512 8192 | log a 4 BadLine | asked | On line 11: `/dev/mapper/m read 8192 512`? On line 11: `/dev/mapper/m read 512 8192`?
sectors_of_blktrace       | bundle | == table t ; 0 64 linear /dev/ram0 0 ; == script ; ram 0 64 ; create m t ; replay ; == log a ; fio version 2 iolog ; /dev/mapper/m add ; /dev/mapper/m open ; /dev/mapper/m WS 8 16 | log a 4 BadLine | mended | blktrace counts sectors, and a log bytes, 512 times as many. Write on line 11: /dev/mapper/m write 4096 8192
event_of_blktrace         | bundle | == table t ; 0 64 linear /dev/ram0 0 ; == script ; ram 0 64 ; create m t ; replay ; == log a ; fio version 2 iolog ; /dev/mapper/m add ; /dev/mapper/m open ; /dev/mapper/m Q WS 8 + 16 | log a 4 BadLine | mended | Write on line 11: /dev/mapper/m write 4096 8192
flush_of_blktrace         | bundle | == table t ; 0 64 linear /dev/ram0 0 ; == script ; ram 0 64 ; create m t ; replay ; == log a ; fio version 2 iolog ; /dev/mapper/m add ; /dev/mapper/m open ; /dev/mapper/m FWFS 0 0 | log a 4 BadLine | mended | `FWFS` are letters of blktrace, and a log has the action as a word: `sync`. Write on line 11: /dev/mapper/m sync 0 0
flushes_of_blktrace       | bundle | == table t ; 0 64 linear /dev/ram0 0 ; == script ; ram 0 64 ; create m t ; replay ; == log a ; fio version 2 iolog ; /dev/mapper/m add ; /dev/mapper/m open ; /dev/mapper/m FWFS 8 8 | log a 4 BadLine | mended | its F is a flush on a line of its own above it, `/dev/mapper/m sync 0 0`; its F is a flush on a line of its own below it
letter_of_bytes_alone     | bundle | == table t ; 0 64 linear /dev/ram0 0 ; == script ; ram 0 64 ; create m t ; replay ; == log a ; fio version 2 iolog ; /dev/mapper/m add ; /dev/mapper/m open ; /dev/mapper/m D 1024 512 | log a 4 BadLine | mended | as sectors the two are `/dev/mapper/m trim 524288 262144`, past the end of the device. Write on line 11: /dev/mapper/m trim 1024 512
letter_of_sectors_or_not  | bundle | == table t ; 0 4096 linear /dev/ram0 0 ; == script ; ram 0 4096 ; create m t ; replay ; == log a ; fio version 2 iolog ; /dev/mapper/m add ; /dev/mapper/m open ; /dev/mapper/m W 0 1024 | log a 4 BadLine | asked | On line 11: `/dev/mapper/m write 0 524288`? On line 11: `/dev/mapper/m write 0 1024`?
sectors_of_a_finding      | bundle | == table t ; 0 64 linear /dev/ram0 0 ; == script ; ram 0 64 ; create m t ; replay ; == log a ; fio version 2 iolog ; /dev/mapper/m add ; /dev/mapper/m open ; /dev/mapper/m read 8+8 | log a 4 BadLine | mended | FIRST+COUNT are sectors, as dmlab's findings tell them, and a log has OFFSET and LENGTH in bytes, 512 times as many. Write on line 11: /dev/mapper/m read 4096 4096
bytes_with_a_plus         | bundle | == table t ; 0 64 linear /dev/ram0 0 ; == script ; ram 0 64 ; create m t ; replay ; == log a ; fio version 2 iolog ; /dev/mapper/m add ; /dev/mapper/m open ; /dev/mapper/m read 4096+512 | log a 4 BadLine | mended | Write on line 11: /dev/mapper/m read 4096 512
comment_of_sql            | log | fio version 2 iolog ; -- open the wal ; /dev/mapper/m add ; /dev/mapper/m open | log a 2 BadLine | mended | Leave line 9 blank
wait_in_nanoseconds       | use | wait 5000000000 0 | log a 4 BadLine | mended | in nanoseconds that are 5000000 microseconds. Write on line 11: /dev/mapper/m wait 5000000 0
action_left_out           | use | 0 512 | log a 4 BadLine | asked | the action is missing: it stands behind the FILE, before the OFFSET and the LENGTH. Which is meant? On line 11: `/dev/mapper/m read 0 512`? On line 11: `/dev/mapper/m write 0 512`? On line 11: `/dev/mapper/m trim 0 512`?
action_left_out_of_a_wait | use | 1000 0 | log a 4 BadLine | mended | Write on line 11: /dev/mapper/m wait 1000 0
one_number_left_out       | use | write 512 | log a 4 BadLine | told | the OFFSET or the LENGTH is missing
two_files_on_a_line       | log | fio version 2 iolog ; /dev/mapper/m /dev/ram0 add | log a 2 BadLine | told | a line has one FILE: write `/dev/mapper/m add` on this line, and `/dev/ram0 add` on a line of its own below it
disk_by_its_numbers       | log | fio version 2 iolog ; 1:0 add ; /dev/ram0 open     | log a 2 V12 | mended | a log names a disk as /dev/ramN, a mapped device as /dev/mapper/NAME. Write on line 9: /dev/ram0 add
device_by_its_numbers     | log | fio version 2 iolog ; 253:0 add ; /dev/mapper/m open | log a 2 V12 | mended | Write on line 9: /dev/mapper/m add
offsets_two_by_two        | bundle | == table t ; 0 4 linear /dev/ram0 0 4 ; == script ; ram 0 8 ; create m t ; replay | table t 1 Args | asked | On line 2: `0 4 linear /dev/ram0 0`? On line 2: `0 4 linear /dev/ram0 4`?
line_that_a_table_has     | script | ram 0 8 ; create m t ; 0 8 linear /dev/ram0 0 ; replay | script 3 BadLine | mended | the line is one of a table, and stands on line 2 already, in the table t. Leave line 6 blank
length_to_the_last_byte   | use | read 0 1023                                        | log a 4 Unaligned | mended | the bytes from 0 up to N are N + 1. Write on line 11: /dev/mapper/m read 0 1024
start_after_the_end       | bundle | == table t ; 0 4 zero ; 5 8 dust /dev/ram0 0 512 ; == script ; ram 0 8 ; create m t ; message m 4 enable ; replay | table t 2 Gap | mended | Write on line 3: 4 8 dust /dev/ram0 0 512
count_before_each_feature | table | 0 8 flakey /dev/ram0 0 2 3 1 error_reads 1 drop_writes | table t 1 Args | mended | Write on line 2: 0 8 flakey /dev/ram0 0 2 3 2 error_reads drop_writes
one_of_three_left_out     | table | 0 8 flakey /dev/ram0 0 1 1 drop_writes | table t 1 Number | mended | one number is missing before drop_writes, OFFSET, UP, DOWN or COUNT: the line is `START LENGTH flakey DEVICE OFFSET UP DOWN COUNT FEATURES`; with 5 seconds of DOWN for example: `0 8 flakey /dev/ram0 0 1 5 1 drop_writes`, with 5 of UP: `0 8 flakey /dev/ram0 0 5 1 1 drop_writes`. Write on line 2: 0 8 flakey /dev/ram0 0 1 1 1 drop_writes
offset_or_count_left_out  | bundle | == table t ; 0 8 flakey /dev/ram0 8 2 1 drop_writes ; == script ; ram 0 16 ; create m t ; replay | table t 1 Number | asked | On line 2: `0 8 flakey /dev/ram0 0 8 2 1 drop_writes`? On line 2: `0 8 flakey /dev/ram0 8 2 1 1 drop_writes`?
down_left_out             | table | 0 8 flakey /dev/ram0 0 4 | table t 1 Args | told | a number is missing: it is `START LENGTH flakey DEVICE OFFSET UP DOWN
down_told_for_example     | table | 0 8 flakey /dev/ram0 0 4 | table t 1 Args | told | with 5 seconds of DOWN for example: `0 8 flakey /dev/ram0 0 4 5`.
offset_of_a_short_flakey  | table | 0 8 flakey /dev/ram0 4 5 | table t 1 Args | mended | Write on line 2: 0 8 flakey /dev/ram0 0 4 5
features_before_times     | table | 0 8 flakey /dev/ram0 0 1 drop_writes 5 5 | table t 1 Number | mended | flakey's features come last, with the number of their words before them: DEVICE OFFSET UP DOWN COUNT FEATURES. Write on line 2: 0 8 flakey /dev/ram0 0 5 5 1 drop_writes
features_before_one_time  | table | 0 8 flakey /dev/ram0 0 1 drop_writes 5 | table t 1 Number | told | flakey's features have their number of words before them
flags_of_requests         | table | 0 8 flakey /dev/ram0 0 0 30 5 corrupt_bio_byte 224 w 0 REQ_META | table t 1 Value | mended | word 13, `REQ_META`, is no number; the flags of corrupt_bio_byte are one, and bios have no flags here: with 0 all are changed, with another number none. Write on line 2: 0 8 flakey /dev/ram0 0 0 30 5 corrupt_bio_byte 224 w 0 0
flags_in_hexadecimal      | table | 0 8 flakey /dev/ram0 0 0 30 5 corrupt_bio_byte 224 w 0x7 0x20 | table t 1 Value | mended | with 0 all are changed, with another number none. Write on line 2: 0 8 flakey /dev/ram0 0 0 30 5 corrupt_bio_byte 224 w 7 0
down_without_an_end       | table | 0 8 flakey /dev/ram0 0 0 -1 1 drop_writes | table t 1 Number | mended | a line with UP 0 is always down, with any DOWN from 1 on. Write on line 2: 0 8 flakey /dev/ram0 0 0 1 1 drop_writes
up_without_an_end         | table | 0 8 flakey /dev/ram0 0 forever 0 | table t 1 Number | mended | a line with DOWN 0 is always up, with any UP from 1 on. Write on line 2: 0 8 flakey /dev/ram0 0 1 0
down_for_ever_behind_up   | table | 0 8 flakey /dev/ram0 0 5 forever 1 drop_writes | table t 1 Number | told | word 7, `forever`, is no number
no_interval_of_a_feature  | table | 0 8 flakey /dev/ram0 0 0 0 1 drop_writes | table t 1 Interval | asked | On line 2: `0 8 flakey /dev/ram0 0 0 1 1 drop_writes`? On line 2: `0 8 flakey /dev/ram0 0 1 0 1 drop_writes`?
history_without_a_heading | log | fio version 2 iolog ; control ; control ; control | log a 2 BadLine | mended | Write before line 9: == history
resume_lost_of_a_log      | bundle | == table t ; 0 8 zero ; == script ; create m --notable ; load m t ; replay ; wait ; table m ; == log a ; fio version 2 iolog ; /dev/mapper/m add | script 5 V3 | mended | Write before line 6: resume m
# ---- a line put in, a create that is lost, lines of status and of strace, files for tables, another device's message
line_put_in               | bundle | == table t ; 0 16 linear /dev/ram0 0 ; 16 1 error ; 16 48 linear /dev/ram0 16 ; == script ; ram 0 64 ; create m t ; replay | table t 3 Gap | mended | Write on line 4: 17 47 linear /dev/ram0 17
line_put_in_above_others  | bundle | == table t ; 0 2 zero ; 2 1 error ; 2 2 delay /dev/ram0 2 5 /dev/ram0 2 9 ; 4 4 zero ; == script ; ram 0 64 ; create m t ; replay | table t 3 Gap | mended | Write on line 4: 3 1 delay /dev/ram0 3 5 /dev/ram0 3 9
line_put_in_before_zeroes | bundle | == table t ; 0 2 zero ; 2 1 error ; 2 6 zero ; == table u ; 0 8 error ; == script ; create m t ; create n u ; replay | table t 3 Gap | mended | Write on line 4: 3 5 zero
line_put_in_under_a_log   | bundle | == table t ; 0 2 zero ; 2 1 error ; 2 6 zero ; == script ; create m t ; replay ; == log a ; fio version 2 iolog ; /dev/mapper/m add ; /dev/mapper/m open ; /dev/mapper/m read 3072 1024 | table t 3 Gap | mended | Write on line 4: 3 5 zero
start_too_small           | bundle | == table t ; 0 32 linear /dev/ram0 0 ; 31 32 linear /dev/ram0 32 ; == script ; ram 0 64 ; create m t ; replay | table t 2 Gap | asked | On line 3: `32 32 linear /dev/ram0 32`? On line 2: `0 31 linear /dev/ram0 0`?
start_too_small_above     | table | 0 4 zero ; 2 2 error ; 6 2 zero | table t 2 Gap | mended | Write on line 3: 4 2 error
line_of_sectors_lost      | table | 0 4 zero ; 5 4 zero | table t 2 Gap | asked | the line of the sectors from 4 up to 5 may be lost; a table's first line starts at 0
line_lost_on_its_disk     | bundle | == table t ; 0 16 linear /dev/ram0 0 ; 24 40 linear /dev/ram0 24 ; == script ; ram 0 64 ; create m t ; replay | table t 2 Gap | asked | Which is meant? On line 2: `0 24 linear /dev/ram0 0`? Before line 3: `16 8 linear /dev/ram0 16`? Before line 3: `16 8 error`?
first_line_lost           | table | 4 4 linear /dev/ram0 4 | table t 1 Gap | asked | the line of the sectors from 0 up to 4 may be lost; a table's first line starts at 0, each other one where the line before it ends. Which is meant? Before line 2: `0 4 linear /dev/ram0 0`? Before line 2: `0 4 error`?
start_behind_its_offset   | bundle | == table t ; 0 16 linear /dev/ram0 0 ; 20 44 linear /dev/ram0 16 ; == script ; ram 0 64 ; create m t ; replay | table t 2 Gap | mended | Write on line 3: 16 44 linear /dev/ram0 16
length_one_too_small      | table | 0 3 linear /dev/ram0 0 ; 4 4 flakey /dev/ram0 4 2 2 1 error_reads | table t 2 Gap | asked | On line 2: `0 4 linear /dev/ram0 0`? Before line 3: `3 1 linear /dev/ram0 3`? Before line 3: `3 1 error`?
line_lost_above_another   | table | 0 2 linear /dev/ram0 0 ; 4 2 linear /dev/ram0 4 ; 6 2 zero | table t 2 Gap | asked | Which is meant? On line 2: `0 4 linear /dev/ram0 0`? Before line 3: `2 2 linear /dev/ram0 2`? Before line 3: `2 2 error`?
create_lost_of_a_file     | bundle | == table t ; 0 8 zero ; == script ; sleep 5 ; replay ; == log a ; fio version 2 iolog ; /dev/mapper/disk add ; /dev/mapper/disk open | log a 2 V12 | mended | no line of the script creates the device disk: a file is a device that stands at `replay` with a live table, as /dev/mapper/NAME, or a disk, as /dev/ramN. Write before line 5: create disk t
create_lost_of_two        | bundle | == table t ; 0 8 zero ; == table u ; 0 8 zero ; == script ; replay ; == log a ; fio version 2 iolog ; /dev/mapper/disk add | log a 2 V12 | asked | Before line 6: `create disk t`? Before line 6: `create disk u`?
create_lost_of_a_command  | bundle | == table t ; 0 8 zero ; == script ; status m ; replay | script 1 V1 | mended | Write before line 4: create m t
create_lost_below_another | bundle | == table t ; 0 8 linear /dev/mapper/mid 0 ; == table mid ; 0 8 zero ; == table u ; 0 8 zero ; == script ; create m t ; replay | script 1 V1 | mended | names /dev/mapper/mid: no device mid stands here. Write before line 8: create mid mid
create_of_another_name    | bundle | == table t ; 0 8 zero ; == script ; create dsk t ; replay ; == log a ; fio version 2 iolog ; /dev/mapper/disk add ; /dev/mapper/disk open | log a 2 V12 | mended | Write on line 4: create disk t
create_that_others_name   | bundle | == table t ; 0 8 zero ; == script ; create dsk t ; status dsk ; replay ; == log a ; fio version 2 iolog ; /dev/mapper/disk add ; /dev/mapper/dsk open | log a 2 V12 | mended | Write on line 9: /dev/mapper/dsk add
status_of_dust            | table | 0 8 dust /dev/ram0 fail_read_on_bad_block verbose | table t 1 Number | mended | the line is as `dmsetup status` prints it, and a table wants the line of `dmsetup table`: it is `START LENGTH dust DEVICE OFFSET BLOCK`. Write on line 2: 0 8 dust /dev/ram0 0 512
status_of_flakey          | table | 0 8 flakey up | table t 1 Args | told | the line is as `dmsetup status` prints it, and a table wants the line of `dmsetup table`: it is `START LENGTH flakey DEVICE OFFSET UP DOWN
status_of_delay           | table | 0 8 delay 0 1 0 | script 2 V1 | told | a number stands in the place of the device, as in a line of `dmsetup status`: a table has the line of `dmsetup table`
status_of_linear          | table | 0 8 linear | table t 1 Args | told | the line is as `dmsetup status` prints it, and a table wants the line of `dmsetup table`: it is `START LENGTH linear DEVICE OFFSET`.
file_of_another_log       | bundle | == table t ; 0 8 zero ; == script ; create m t ; create n t ; replay ; == log a ; fio version 2 iolog ; /dev/mapper/m add ; /dev/mapper/m open ; /dev/mapper/n write 0 512 | log a 4 V13 | told | `/dev/mapper/n add` and then `/dev/mapper/n open` stand before its first use; or `/dev/mapper/m write 0 512` is meant, of the only file that is open here.
file_beside_two_others    | bundle | == table t ; 0 8 zero ; == script ; create m t ; create n t ; create o t ; replay ; == log a ; fio version 2 iolog ; /dev/mapper/m add ; /dev/mapper/m open ; /dev/mapper/o add ; /dev/mapper/o open ; /dev/mapper/n write 0 512 | log a 6 V13 | told | stand before its first use.
call_of_strace            | log | fio version 2 iolog ; /dev/mapper/m add ; /dev/mapper/m open ; pwrite64(3, "a, b)"..., 512, 1024) = 512 | log a 4 BadLine | mended | this is a call as strace shows it, and a log's line is FILE, the action, OFFSET and LENGTH, the two in bytes. Write on line 11: /dev/mapper/m write 1024 512
call_of_a_process         | log | fio version 2 iolog ; /dev/mapper/m add ; /dev/mapper/m open ; [pid 77] fdatasync(3)           = 0 | log a 4 BadLine | mended | Write on line 11: /dev/mapper/m datasync 0 0
call_without_an_offset    | log | fio version 2 iolog ; /dev/mapper/m add ; /dev/mapper/m open ; write(3, "x"..., 512) = 512 | log a 4 BadLine | told | this is a call as strace shows it
call_of_a_closed_file     | log | fio version 2 iolog ; /dev/mapper/m add ; /dev/mapper/m open ; /dev/mapper/m close ; fsync(3) = 0 | log a 5 BadLine | told | this is a call as strace shows it
product_for_an_offset     | use | write 3*512 512                                  | log a 4 BadLine  | mended | word 3, `3*512`, is no number; a line is FILE and add, open or close; or FILE, one of read, write, trim, sync and datasync, OFFSET and LENGTH in bytes; or FILE wait MICROSECONDS 0. Write on line 11: /dev/mapper/m write 1536 512
product_for_a_length      | table | 0 2*4 linear /dev/ram0 0                       | table t 1 Number | mended | Write on line 2: 0 8 linear /dev/ram0 0
status_of_a_target        | bundle | == table t ; 0 8 zero ; == script ; create base t ; dmsetup status --target dust /dev/mapper/base ; replay | script 2 BadLine | mended | Write on line 5: status base
status_of_an_option       | script | ram 0 8 ; create m t ; status --noflush m ; replay | script 3 BadLine | mended | Write on line 6: status m
table_from_a_file         | bundle | == table top ; 0 8 zero ; == table u ; 0 8 zero ; == script ; create top < /tmp/top.table ; replay | script 1 BadLine | mended | Write on line 6: create top top
table_by_a_file           | bundle | == table top ; 0 8 zero ; == table u ; 0 8 zero ; == script ; create top top.table ; replay | script 1 V1 | mended | Write on line 6: create top top
table_from_another_file   | script | ram 0 8 ; create m --table-file x ; replay       | script 2 BadLine | mended | Write on line 5: create m t
table_of_no_file          | bundle | == table t ; 0 8 zero ; == table u ; 0 8 zero ; == script ; create m x.table ; replay | script 1 V1 | told | the bundle has no part `== table x.table`, but only the tables t, u.
table_of_the_device       | bundle | == table t ; 0 8 zero ; == table u ; 0 8 zero ; == script ; create m u ; create wal wal ; replay | script 2 V1 | mended | Write on line 7: create wal t
disk_lost_of_two_tables   | bundle | == table t ; 0 8 linear /dev/ram0 0 ; == table u ; 0 8 linear /dev/ram0 24 ; == script ; create m t ; create n u ; replay | script 1 V1 | mended | Write before line 6: ram 0 32
disk_lost_under_a_log     | bundle | == table t ; 0 8 linear /dev/ram0 0 ; == script ; create m t ; replay ; == log a ; fio version 2 iolog ; /dev/ram0 add ; /dev/ram0 open ; /dev/ram0 write 7680 512 ; /dev/ram0 wait 900000 0 | script 1 V1 | mended | Write before line 4: ram 0 16
replay_lost_before_sleep  | script | ram 0 8 ; create m t ; sleep 5 ; status m        | script 0 V10     | asked | Before line 6: `replay`? Before line 8: `replay`?
replay_lost_before_a_wait | script | ram 0 8 ; create m t ; sleep 5 ; wait           | script 4 V10     | asked | Before line 6: `replay`? Before line 7: `replay`?
number_of_no_bio          | audit | == table t ; 0 8 linear /dev/ram0 0 ; == script ; ram 0 8 ; create m t ; replay ; == log a ; fio version 2 iolog ; /dev/mapper/m add ; /dev/mapper/m open ; /dev/mapper/m write 0 512 ; == history ; control ; control ; line 1 ; line 1 ; line 1 ; map 1 ; serve 22 ; finish 1 | not a run at 7 | told | those before it may: no bio 22 lives yet, and `serve 2` may be meant; a history
number_of_no_bio_near     | audit | == table t ; 0 8 linear /dev/ram0 0 ; == script ; ram 0 8 ; create m t ; replay ; == log a ; fio version 2 iolog ; /dev/mapper/m add ; /dev/mapper/m open ; /dev/mapper/m write 0 512 ; == history ; control ; control ; line 1 ; line 1 ; line 1 ; map 77 ; serve 2 ; finish 1 | not a run at 6 | told | those before it may: no bio 77 lives yet; a history
release_left_out          | audit | == table t ; 0 8 delay /dev/ram0 0 1 ; == script ; ram 0 8 ; create m t ; replay ; == log a ; fio version 2 iolog ; /dev/mapper/m add ; /dev/mapper/m open ; /dev/mapper/m write 0 512 ; == history ; control ; control ; line 1 ; line 1 ; line 1 ; map 1 ; clock ; serve 2 ; finish 1 | not a run at 8 | told | those before it may: a bio that a delay line holds goes on by its `release`, and no `release 2` stands above it; a history
message_to_another_device | bundle | == table t ; 0 8 zero ; == table d ; 0 8 dust /dev/ram0 0 512 ; == script ; ram 0 8 ; create m t ; create d d ; message m 0 enable ; replay | script 4 V9 | mended | Write on line 9: message d 0 enable
message_to_two_devices    | bundle | == table t ; 0 8 zero ; == table d ; 0 8 dust /dev/ram0 0 512 ; == script ; ram 0 8 ; create m t ; create d d ; create e d ; message m 0 enable ; replay | script 5 V9 | asked | On line 10: `message d 0 enable`? On line 10: `message e 0 enable`?
message_to_what_was_dust  | bundle | == table t ; 0 8 zero ; == table d ; 0 8 dust /dev/ram0 0 512 ; == script ; ram 0 8 ; create m d ; load m t ; resume m ; message m 0 countbadblocks ; replay | script 5 V9 | told | the table d with its dust line isn't live here: line 8 loads t for m in its place, which takes no message at sector 0
block_that_was_added      | bundle | == table t ; 0 8 dust /dev/ram0 0 512 ; == script ; ram 0 8 ; create m t ; message m 0 addbadblock 3 ; message m 0 removebadblock ; replay | script 4 V9 | mended | Write on line 7: message m 0 removebadblock 3
block_that_none_added     | bundle | == table t ; 0 8 dust /dev/ram0 0 512 ; == script ; ram 0 8 ; create m t ; message m 0 removebadblock ; replay | script 3 V9 | told | it is `message NAME SECTOR removebadblock N`, with a block N.
corrupted_without_a_side  | table | 0 8 flakey /dev/ram0 0 5 1 4 corrupt_bio_byte 1 20 0 | table t 1 Args | asked | On line 2: `0 8 flakey /dev/ram0 0 5 1 5 corrupt_bio_byte 1 r 20 0`? On line 2: `0 8 flakey /dev/ram0 0 5 1 5 corrupt_bio_byte 1 w 20 0`?
corrupted_at_byte_0       | table | 0 8 flakey /dev/ram0 0 5 1 5 corrupt_bio_byte 0 r 20 0 | table t 1 Value | mended | word 10 is `0`, and corrupt_bio_byte takes a byte from 1 on: the first of a request is 1. Write on line 2: 0 8 flakey /dev/ram0 0 5 1 5 corrupt_bio_byte 1 r 20 0
resume_of_a_table         | bundle | == table t ; 0 8 zero ; == table new ; 0 8 error ; == script ; create disk t ; load disk new ; resume new ; replay | script 3 V1 | mended | Write on line 8: resume disk
name_of_two_bare_words    | bundle | == table t ; 0 8 zero ; == script ; create my disk t ; replay | script 1 BadLine | mended | a NAME has no blanks and no quotes: it has 1 to 32 letters, digits, `_`, `.` and `-`, and each line that names the device has it so. Write on line 4: create my_disk t
name_before_another_table | bundle | == table t ; 0 8 zero ; == table u ; 0 8 zero ; == script ; create m u t ; replay | script 1 BadLine | mended | Write on line 6: create m u
type_behind_its_length    | table | 0 8linear /dev/ram0 0                            | table t 1 Number | mended | Write on line 2: 0 8 linear /dev/ram0 0
three_removed_from_below  | bundle | == table t ; 0 8 zero ; == table u ; 0 8 linear /dev/mapper/m 0 ; == table v ; 0 8 linear /dev/mapper/n 0 ; == script ; create m t ; create n u ; create o v ; remove m ; remove n ; remove o ; replay | script 4 V8 | told | the devices that are laid on m go first, the top one before all: `remove o`, `remove n`, `remove m`, in this order.
# ---- numbers in several words, words in one, and lines of no part
sleep_with_blanks         | script | ram 0 8 ; create m t ; replay ; sleep 60 000 000 | script 4 BadLine | mended | with no blank and no mark between its thousands. Write on line 7: sleep 60000000
sleep_with_underscores    | script | ram 0 8 ; create m t ; replay ; sleep 60_000_000 | script 4 BadLine | mended | Write on line 7: sleep 60000000
sleep_with_quotes         | script | ram 0 8 ; create m t ; replay ; sleep 60'000'000 | script 4 BadLine | mended | Write on line 7: sleep 60000000
sleep_with_blanks_and_ms  | script | ram 0 8 ; create m t ; replay ; sleep 1 500 ms | script 4 BadLine | mended | Write on line 7: sleep 1500000
sleep_of_two_numbers      | script | ram 0 8 ; create m t ; replay ; sleep 60 7 | script 4 BadLine | mended | it is `sleep MICROSECONDS`, at most 3600000000
disk_with_a_blank         | script | ram 0 2 048 ; create m t ; replay | script 1 BadLine | mended | Write on line 4: ram 0 2048
length_with_a_blank       | bundle | == table t ; 0 2 048 linear /dev/ram0 0 ; == script ; ram 0 2048 ; create m t ; replay | table t 1 Unknown | mended | Write on line 2: 0 2048 linear /dev/ram0 0
write_with_a_blank        | use | write 0 1 024 | log a 4 BadLine | mended | Write on line 11: /dev/mapper/m write 0 1024
write_with_a_byte         | use | write 0 512 255 | log a 4 BadLine | mended | Write on line 11: /dev/mapper/m write 0 512
wait_with_blanks          | use | wait 1 000 000 | log a 4 BadLine | mended | Write on line 11: /dev/mapper/m wait 1000000 0
delays_of_two_kinds       | table | 0 8 delay /dev/ram0 0 10 500 | table t 1 Args | mended | Write on line 2: 0 8 delay /dev/ram0 0 10 /dev/ram0 0 500
file_and_action_in_one    | log | fio version 2 iolog ; /dev/mapper/m add ; /dev/mapper/m open ; /dev/mapper/mwrite 0 512 | log a 4 BadLine | mended | Write on line 11: /dev/mapper/m write 0 512
file_and_no_action        | log | fio version 2 iolog ; /dev/mapper/m add ; /dev/mapper/m open ; /dev/mapper/mx 0 512 | log a 4 BadLine | told | a line is FILE and add, open or close
action_and_offset_in_one  | use | write0 512 | log a 4 BadLine | mended | Write on line 11: /dev/mapper/m write 0 512
type_and_device_in_one    | table | 0 8 linear/dev/ram0 0 | table t 1 Unknown | mended | Write on line 2: 0 8 linear /dev/ram0 0
verb_and_device_in_one    | script | ram 0 8 ; create m t ; suspendm ; resume m ; replay | script 3 BadLine | mended | Write on line 6: suspend m
action_of_two_words       | use | wri te 0 512 | log a 4 BadLine | mended | Write on line 11: /dev/mapper/m write 0 512
type_of_two_words         | table | 0 8 lin ear /dev/ram0 0 | table t 1 Unknown | mended | Write on line 2: 0 8 linear /dev/ram0 0
file_of_two_words         | log | fio version 2 iolog ; /dev/map per/m add ; /dev/mapper/m open | log a 2 BadLine | mended | Write on line 9: /dev/mapper/m add
end_of_a_here_document    | log | fio version 2 iolog ; /dev/mapper/m add ; EOF | log a 3 BadLine | mended | this ends a text of a shell or of a document, and is no line of a bundle: a part ends where the next heading stands. Leave line 10 blank
end_of_a_code_block       | script | ram 0 8 ; create m t ; replay ; ``` | script 4 BadLine | mended | Leave line 7 blank
end_of_a_table            | table | 0 8 linear /dev/ram0 0 ; END | table t 2 Args | mended | Leave line 3 blank
words_in_a_log            | log | fio version 2 iolog ; /dev/mapper/m add ; what follows is new | log a 3 BadLine | mended | no word of this line is a FILE, an action or a number, so it is no line of a log. Leave line 10 blank
device_alone_in_a_log     | log | fio version 2 iolog ; /dev/mapper/m add ; m what | log a 3 BadLine | told | a line is FILE and add, open or close
words_in_a_table          | table | 0 8 linear /dev/ram0 0 ; and so on | table t 2 Number | mended | so it is no line of a table. Leave line 3 blank
answer_of_a_read          | log | fio version 2 iolog ; /dev/mapper/m add ; 5 read 4096x00 4096x14 | log a 3 BadLine | mended | this is a line of what a run wrote, and is no line of a bundle. Leave line 10 blank
answer_of_a_sync          | log | fio version 2 iolog ; /dev/mapper/m add ; 5 sync ok | log a 3 BadLine | mended | Leave line 10 blank
log_that_a_run_names      | log | fio version 2 iolog ; /dev/mapper/m add ; log a | log a 3 BadLine | mended | Leave line 10 blank
time_before_a_read        | log | fio version 2 iolog ; /dev/mapper/m add ; 5 read 0 | log a 3 BadLine | told | `tools/iolog3to2` makes it of version 3
script_as_an_event        | audit | == script ; create m --notable ; replay ; == history ; script ; control | history 1 BadLine | mended | Write on line 5: control
log_as_an_event           | audit | == script ; ram 0 8 ; replay ; == log a ; fio version 2 iolog ; == log b ; fio version 2 iolog ; == history ; log b | history 1 BadLine | mended | the log b is 2. Write on line 9: line 2
columns_of_a_trace        | audit | == script ; create m --notable ; replay ; == history ; 1\t0\tcontrol ; 2\t0\tcontrol | history 1 BadLine | mended | `cut -f 3` of all its lines but the first makes the history
names_of_a_trace          | audit | == script ; create m --notable ; replay ; == history ; place\tclock\tevent ; 1\t0\tcontrol | history 1 BadLine | told | `cut -f 3` of all its lines but the first makes the history
add_for_an_open           | log | fio version 2 iolog ; /dev/mapper/m add ; /dev/mapper/m add ; /dev/mapper/m write 0 512 | log a 4 V13 | mended | Write on line 10: /dev/mapper/m open
add_of_another_file       | log | fio version 2 iolog ; /dev/mapper/m add ; /dev/mapper/m add ; /dev/mapper/m open ; /dev/ram0 open | log a 5 V13 | mended | Write on line 10: /dev/ram0 add
open_of_another_file      | log | fio version 2 iolog ; /dev/mapper/m add ; /dev/ram0 add ; /dev/mapper/m open ; /dev/mapper/m open ; /dev/ram0 read 0 512 | log a 5 V13 | mended | a file is added, then opened
# ---- what other testers got wrong
run_a_second_time         | bundle | == table t ; 0 8 zero ; == table d ; 0 8 error ; == script ; create m t ; replay ; wait ; load m d ; resume m ; replay | script 6 V10 | told | each log runs once: for more requests behind a change of a table
run_before_its_device     | script | ram 0 8 ; replay ; create m t ; replay | script 4 V10 | mended | Leave line 5 blank
cycle_of_two_devices      | bundle | == table b ; 0 8 linear /dev/ram0 0 ; == table r ; 0 8 linear /dev/mapper/m 0 ; == table o ; 0 8 linear /dev/mapper/r 0 ; == script ; ram 0 8 ; create m b ; create r r ; replay ; load m o | script 5 V11 | told | line 6, `0 8 linear /dev/mapper/r 0`, lays m on r, and line 4, `0 8 linear /dev/mapper/m 0`, lays r on m
device_counted_from_1     | bundle | == table l ; 0 8 zero ; == table u ; 0 8 linear /dev/dm-1 0 ; == script ; create low l ; create m u ; replay | script 2 V1 | mended | devices are counted from 0, as they are created: /dev/dm-0 is low, /dev/dm-1 is m
command_of_a_number       | script | ram 0 8 ; create m t ; replay ; suspend /dev/dm-0 ; resume m | script 4 BadLine | mended | Write on line 7: suspend m
command_of_two_numbers    | script | ram 0 8 ; create m t ; replay ; status 253:0 | script 4 BadLine | mended | Write on line 7: status m
command_of_a_short_number | script | ram 0 8 ; create m t ; replay ; status dm0 | script 4 V1 | mended | a command has the NAME of its device, and no number. Write on line 7: status m
seed_in_the_script        | script | seed 7 ; ram 0 8 ; create m t ; replay | script 1 BadLine | mended | as in `dmlab sim --seed 7 FILE`. Leave line 4 blank
speed_in_the_script       | script | ram 0 8 ; create m t ; speed 2 ; replay | script 3 BadLine | mended | Leave line 6 blank
comment_of_sql_in_a_script | script | -- one disk ; ram 0 8 ; create m t ; replay | script 1 BadLine | mended | Write on line 4: # one disk
load_of_a_part            | bundle | == table t ; 0 8 linear /dev/ram0 0 ; == table d ; 0 4 error ; == script ; ram 0 8 ; create m t ; replay ; load m d | script 4 V5 | asked | Before line 5: `4 4 linear /dev/ram0 4`? Before line 5: `4 4 error`? On line 4: `0 8 error`?
load_that_isnt_resumed    | script | ram 0 8 ; create m --notable ; load m t ; replay | log a 2 V12 | mended | Write before line 7: resume m
no_load_and_no_resume     | script | ram 0 8 ; create m --notable ; replay | log a 2 V12 | told | has no live table at the `replay`
disk_in_bytes             | bundle | == table t ; 0 2048 linear /dev/ram0 0 ; == script ; ram 0 1048576 ; create m t ; replay | script 1 BadLine | mended | 1048576 bytes are 2048 sectors. Write on line 4: ram 0 2048
path_of_lvm               | bundle | == table b ; 0 8 linear /dev/ram0 0 ; == table l ; 0 8 linear /dev/vg0/base 0 ; == script ; ram 0 8 ; create vg0-base b ; create m l ; replay | script 3 V1 | told | a device of LVM is /dev/mapper/vg0-base
create_that_is_copied     | bundle | == table wal ; 0 8 linear /dev/ram0 0 ; == table data ; 0 8 linear /dev/ram0 0 ; == script ; ram 0 8 ; create wal wal ; create wal data ; replay ; == log d ; fio version 2 iolog ; /dev/mapper/data add | script 3 V2 | mended | another device has another name; or, to change the table of wal, write `load wal data` and below it `resume wal`. Write on line 8: create data data
table_for_its_device      | bundle | == table base ; 0 8 linear /dev/ram0 0 ; == table t ; 0 8 delay /dev/mapper/base 0 20 ; == script ; ram 0 8 ; create disk base ; create m t ; replay | script 3 V1 | told | base is the table of /dev/mapper/disk
table_that_none_names     | bundle | == table rotten ; 0 8 zero ; == table healthy ; 0 8 zero ; == script ; create m t ; replay ; load m healthy ; resume m | script 1 V1 | told | no command names the table rotten
disk_of_another_number    | script | ram 1 8 ; create m t ; replay | script 2 V1 | asked | On line 4: `ram 0 8`?
verb_that_is_lost         | script | ram 0 8 ; create m t ; suspend m ; m ; replay | script 4 BadLine | mended | Write on line 7: resume m
load_that_is_lost         | script | ram 0 8 ; create m --notable ; m t ; resume m ; replay | script 3 BadLine | mended | Write on line 6: load m t
name_that_is_lost         | script | ram 0 8 ; create t ; replay | script 2 BadLine | mended | Write on line 5: create m t
device_of_a_message_lost  | bundle | == table t ; 0 8 dust /dev/ram0 0 512 ; == script ; ram 0 8 ; create m t ; message 0 enable ; replay | script 3 BadLine | mended | Write on line 6: message m 0 enable
disk_by_two_letters       | script | rm 0 8 ; create m t ; replay | script 1 BadLine | mended | Write on line 4: ram 0 8
part_that_is_copied       | bundle | == table t ; 0 8 zero ; == script ; create m t ; replay ; == log a ; fio version 2 iolog ; /dev/mapper/m add ; == log a ; fio version 2 iolog ; /dev/mapper/m add | bundle 9 Twice | told | lines 9 to 11 are the part of line 6 once more: leave one of the two out
heading_and_a_command     | bundle | == table t ; 0 8 zero ; == script\x3b create m t ; replay | bundle 3 BadHeading | told | write `== script` there, and `create m t` on a line of its own below it
heading_and_an_event      | bundle | == script ; replay ; == history control | bundle 3 BadHeading | told | write `== history` there, and `control` on a line of its own below it
two_uses_on_a_line        | use | write 0 512 && /dev/mapper/m read 0 512 ; close | log a 4 BadLine | told | write `/dev/mapper/m write 0 512` here, and `/dev/mapper/m read 0 512` on a line of its own below it
heading_behind_a_line     | bundle | == table t ; 0 8 zero ; == script ; create m t ; replay == log a ; fio version 2 iolog ; /dev/mapper/m add | script 2 BadLine | told | write `replay` here, and `== log a` on a line of its own below it
script_behind_a_line      | bundle | == table t ; 0 8 zero == script ; create m t ; replay | bundle 0 NoScript | told | line 2, `0 8 zero == script`: two lines stand on this one
line_with_a_wrong_offset  | bundle | == table t ; 0 8 linear /dev/ram0 0 ; 8 56 linear /dev/ram0 16 ; == script ; ram 0 64 ; create m t ; replay | script 2 V4 | asked | On line 3: `8 48 linear /dev/ram0 16`? On line 3: `8 56 linear /dev/ram0 8`?
length_up_to_the_next     | table | 0 y linear /dev/ram0 0 ; 2 6 linear /dev/ram0 2 | table t 1 Number | mended | Write on line 2: 0 2 linear /dev/ram0 0
up_and_down_of_0          | table | 0 8 flakey /dev/ram0 0 0 0 | table t 1 Interval | asked | a line that is always down has 0 and 1
add_without_its_file      | log | fio version 2 iolog ; add ; /dev/mapper/m open ; /dev/mapper/m close | log a 2 BadLine | mended | Write on line 9: /dev/mapper/m add
loop_without_its_loop     | bundle | == table t ; 0 8 dust /dev/ram0 0 512 ; == script ; ram 0 8 ; create m t ; message m 0 addbadblock $b ; replay | script 3 V9 | told | a script has no variables of a shell
add_of_the_other_file     | bundle | == table data ; 0 8 zero ; == table flaky ; 0 8 zero ; == script ; create data data ; create wal flaky ; replay ; == log data ; fio version 2 iolog ; /dev/mapper/data add ; /dev/mapper/wal open ; /dev/mapper/wal write 0 512 | log data 3 V13 | told | write `/dev/mapper/data open` on line 12, and /dev/mapper/data in the lines below it; or `/dev/mapper/wal add` on line 11
add_and_open_of_two_files | bundle | == table data ; 0 8 zero ; == table flaky ; 0 8 zero ; == script ; create data data ; create wal flaky ; replay ; == log data ; fio version 2 iolog ; /dev/mapper/data add ; /dev/mapper/wal open | log data 3 V13 | told | line 11 adds /dev/mapper/data, which the log never opens, and this line opens /dev/mapper/wal, which it never adds
file_of_a_tables_name     | bundle | == table data ; 0 8 zero ; == table flaky ; 0 8 zero ; == script ; create data data ; create wal flaky ; replay ; == log data ; fio version 2 iolog ; /dev/mapper/flaky add ; /dev/mapper/flaky open | log data 2 V12 | told | flaky is the table of the device wal: its FILE is /dev/mapper/wal
open_above_its_add        | log | fio version 2 iolog ; /dev/mapper/m open ; /dev/mapper/m add ; /dev/mapper/m close | log a 2 V13 | told | `/dev/mapper/m add` stands on line 10, below this line, so exchange the two lines
use_above_its_open        | log | fio version 2 iolog ; /dev/mapper/m add ; /dev/mapper/m read 0 512 ; /dev/mapper/m wait 5 0 ; /dev/mapper/m open | log a 3 V13 | told | `/dev/mapper/m open` stands on line 12, below this line, so move that line above this one
close_above_a_use         | log | fio version 2 iolog ; /dev/mapper/m add ; /dev/mapper/m open ; /dev/mapper/m close ; /dev/mapper/m read 0 512 | log a 5 V13 | asked | line 11 closes it. Which is meant? Before line 12: `/dev/mapper/m open`? Line 11 blank: ``?
add_above_its_header      | log | /dev/mapper/m add ; fio version 2 iolog ; /dev/mapper/m open | log a 1 Header | told | exchange the lines 8 and 9
header_that_stands_twice  | bundle | == table t ; 0 8 zero ; == script ; create m t ; replay ; fio version 2 iolog ; == log a ; fio version 2 iolog ; /dev/mapper/m add | script 3 BadLine | mended | a log's first line stands below its heading, where one stands already. Leave line 6 blank
type_as_the_last_word     | bundle | == table t ; 0 4 linear /dev/ram0 0 ; 4 4 /dev/ram0 4 linear ; == script ; ram 0 8 ; create m t ; replay | table t 2 Unknown | mended | the TYPE is the third word of a line, before its device: a table line is START LENGTH TYPE ARGUMENTS. Write on line 3: 4 4 linear /dev/ram0 4
delay_in_seconds          | table | 0 8 delay /dev/ram0 0 0.5 | table t 1 Number | mended | a delay counts whole milliseconds: 0.5 seconds are 500 of them. Write on line 2: 0 8 delay /dev/ram0 0 500
delay_of_four_digits      | table | 0 8 delay /dev/ram0 0 0.0005 | table t 1 Number | told | a number is whole, and has no point
end_for_an_odd_length     | bundle | == table t ; 0 64 linear /dev/ram0 0 ; == script ; ram 0 64 ; create m t ; replay ; == log a ; fio version 2 iolog ; /dev/mapper/m add ; /dev/mapper/m open ; /dev/mapper/m write 4096 8191 | log a 4 Unaligned | asked | the last number is a LENGTH, and not the last byte. Which is meant? On line 11: `/dev/mapper/m write 4096 4096`? On line 11: `/dev/mapper/m write 4096 8192`?
length_of_0_above_another | log | fio version 2 iolog ; /dev/mapper/m add ; /dev/mapper/m open ; /dev/mapper/m write 0 1024 ; /dev/mapper/m write 2048 0 | log a 5 EmptyRange | asked | On line 12: `/dev/mapper/m write 2048 1024`? On line 12: `/dev/mapper/m write 0 2048`?
read_up_to_the_end        | log | fio version 2 iolog ; /dev/mapper/m add ; /dev/mapper/m open ; /dev/mapper/m read 3072 2048 | log a 4 V14 | asked | On line 11: `/dev/mapper/m read 3072 1024`? On line 11: `/dev/mapper/m read 2048 2048`?
replay_of_each_log        | script | ram 0 8 ; create m t ; replay ; replay b | script 4 BadLine | mended | has no name behind it, and stands on line 6 already. Leave line 7 blank
wait_that_stands_twice    | script | ram 0 8 ; create m t ; replay ; wait ; status m ; wait | script 6 V10 | mended | a script has at most one `wait`, and one stands on line 7. Leave line 9 blank
create_of_a_files_name    | bundle | == table a ; 0 8 zero ; == table b ; 0 8 zero ; == script ; create data a ; create data b ; replay ; == log y ; fio version 2 iolog ; /dev/mapper/wal add | script 2 V2 | mended | Write on line 7: create wal b
remark_in_a_log           | log | fio version 2 iolog ; /dev/mapper/m add ; # the commit ; /dev/mapper/m open | log a 3 BadLine | mended | a log has no comments: they stand in tables, in the script and before the first heading. Leave line 10 blank
name_without_its_path     | log | fio version 2 iolog ; m add ; /dev/mapper/m open | log a 2 V12 | mended | a log names a device by its path, and m is /dev/mapper/m. Write on line 9: /dev/mapper/m add
number_of_no_device       | log | fio version 2 iolog ; /dev/dm-1 add ; /dev/dm-1 open | log a 2 V12 | mended | devices are counted from 0, as they are created: /dev/dm-0 is m. Write on line 9: /dev/dm-0 add
table_besides_another     | script | ram 0 8 ; create disk --table '0 8 zero' ; replay | script 2 BadLine | told | or `create disk t`, by the table that no command names
feature_of_reads          | table | 0 8 flakey /dev/ram0 0 5 5 2 drop_reads drop_writes | table t 1 Feature | mended | reads can't be dropped, `error_reads` lets them fail. Write on line 2: 0 8 flakey /dev/ram0 0 5 5 2 error_reads drop_writes
offset_that_none_shows    | bundle | == table t ; 0 8 error ; 8 56 linear /dev/ram0 ; == script ; ram 0 64 ; create m t ; replay | table t 2 Args | asked | On line 3: `8 56 linear /dev/ram0 8`? On line 3: `8 56 linear /dev/ram0 0`?
heading_of_events         | bundle | == script ; create m --notable ; replay ; == events ; control | bundle 4 BadHeading | mended | Write on line 4: == history
END
)

# words_of NAME WORDS PHRASE: words that aren't taken have status 2 and this tip, and none that takes
# an option for a file's name
words_of() {
    local words tip
    read -r -a words < <(printf '%b\n' "$2")
    tip="  tip: $(printf '%b' "$3")"
    "$dmlab" "${words[@]}" < /dev/null > "$room/stdout" 2> "$room/stderr"
    [ "$?" = 2 ] || { count "$1" "another status"; return; }
    if grep -q "as a value" "$room/stderr" || ! grep -qF -- "$tip" "$room/stderr"; then
        count "$1" "it doesn't say $3: $(tr '\n' '~' < "$room/stderr")"
        return
    fi
    count "$1" ''
}

while IFS='|' read -r name words phrase; do
    words_of "$name" "$words" "$phrase"
done < <(sed -E '/^# /d; s/ *\| */|/g' << 'END'
option_of_another_command | sim --last 9                 | it is an option of 'dmlab sweep'
option_that_is_not_there  | sweep --seeds 9              | 'dmlab sweep' takes --first N, --last N, --prompt
option_of_one_letter      | sim -s 3                     | 'dmlab sim' takes --seed N, --prompt
option_of_one_hyphen      | sim -seed 3                  | 'dmlab sim' takes --seed N, --prompt
option_misspelt           | sim --sed 3                  | a similar argument exists: '--seed'
option_before_its_command | --seed 3 sim                 | the command comes first: 'dmlab COMMAND --seed'
option_with_a_print_dash  | sim \xE2\x80\x93seed 3 a  | '\xE2\x80\x93seed' begins with a dash of print: write '--seed'
option_of_a_trace         | trace --lost                 | it is an option of 'dmlab sim', 'dmlab sweep'
number_with_an_exponent   | sweep --last 1e6             | N is decimal digits alone
number_with_a_sign        | sim --seed -1                | 'dmlab sim' takes --seed N
flag_with_a_value         | sim --history a b            | '--history' takes no value
file_that_is_the_second   | sim a b                      | 'dmlab sim' takes one FILE, and 'a' is taken for it
command_that_is_none      | run a                        | the commands are check, sim, threads, audit, trace, trace-history, disks, disks-history, sweep
file_before_a_command     | a.bundle                     | a command comes before the file: 'dmlab sim a.bundle'
help_as_a_command         | help sim                     | 'dmlab --help' shows the help
seeds_of_a_sim            | sim --seeds 0-99 --lost a    | many seeds are run by sweep: 'dmlab sweep --first 0 --last 99 --lost a'
seed_of_two_numbers       | sim --seed 0..9 a            | many seeds are run by sweep: 'dmlab sweep --first 0 --last 9 a'
count_of_a_sweep          | sweep --count 100 --lost a   | a sweep has its first seed and its last one: 'dmlab sweep --first 0 --last 99 --lost a'
last_of_the_disks         | disks --last 99 a            | many seeds are run by sweep: 'dmlab sweep --first 0 --last 99 --disks a'
last_of_a_trace           | trace --last=9               | many seeds are run by sweep: 'dmlab sweep --first 0 --last 9 FILE'
seed_of_a_sweep           | sweep --seed 5 --lost a      | one seed is run by sim: 'dmlab sim --seed 5 --lost a'
finding_behind_an_option  | sweep --last 99 --find lost  | 'dmlab sweep' takes --first N, --last N, --prompt
number_of_no_option       | sweep 0 100 a                | a number stands behind its option: '--first N --last N'
sweep_without_its_last    | sweep --lost a               | 'dmlab sweep --last 99 FILE' runs the seeds 0 to 99
finding_of_another_option | sim --find stale a           | a finding is an option of its own: '--stale'
option_for_the_output     | sim --output b a             | output goes to standard output: 'dmlab sim FILE > OUTPUT'
flag_with_a_yes           | sim --history=yes a          | '--history' takes no value: write it alone
version_as_a_command      | version                      | 'dmlab --version' shows the version
run_for_a_sim             | run --seed 1 --lost a        | a bundle is run by sim, and by sweep for many seeds: 'dmlab sim --seed 1 --lost a'
history_as_another_file   | audit a b                    | a history stands behind its bundle, in one file
END
)

finish
