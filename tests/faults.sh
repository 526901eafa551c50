#!/bin/bash
# Runs `dmlab check`, or `dmlab audit`, on small inputs, most of them with one fault, some just
# without one. One line for each case that fails, and at the end 'N passed, M failed'. It wants the
# proved program.
#
# A case is NAME | PART | LINES | the one line of output. A ` ; ` stands for a line break and \xHH
# for a byte. The LINES take the place of one PART of the plain input: a write and a read through
# the linear device m, which has the table t; `use` gives the log's lines from line 4 on, without
# their file word, `log` the whole log, and `bundle` the whole input. `orders` gives the script and
# what follows it, below tables of several sizes. `audit` gives the whole input too, and is run by
# `dmlab audit`. What is told besides, on standard error, has a table of its own: advice.sh.
cd "$(dirname "$0")/.." || exit 1
. tests/cases.sh
needs_program
m=/dev/mapper/m
header='fio version 2 iolog'
# tables of 4, 8 and 16 sectors of disk 0, of 8 that take messages, and of 4 or 8 sectors of
# devices
tables='== table t4 ; 0 4 linear /dev/ram0 0 ; == table past4 ; 0 4 linear /dev/ram0 8
== table t8 ; 0 8 linear /dev/ram0 0 ; == table t16 ; 0 16 linear /dev/ram0 0
== table dust ; 0 8 dust /dev/ram0 0 512 ; == table low ; 0 8 linear /dev/mapper/low 0
== table real ; 0 8 linear /dev/mapper/real 0 ; == table m ; 0 8 linear /dev/mapper/m 0
== table m4 ; 0 4 linear /dev/mapper/m 0 ; == table first ; 0 8 linear /dev/dm-0 0'

# is_told STATUS: standard error has one line or two of dmlab's at status 1, and nothing at 0
is_told() {
    ! grep -qv '^dmlab: .' "$room/stderr" && [[ "$1 $(wc -l < "$room/stderr")" == @("0 0"|"1 1"|"1 2") ]]
}

# case_of NAME PART LINES WANTED: runs a case, and counts it
case_of() {
    local table='0 8 linear /dev/ram0 0' script='ram 0 8 ; create m t ; replay'
    local command=check status=0
    local log="$header ; $m add ; $m open" use="write 0 512 ; read 0 512 ; close"
    case "$2" in
        bundle | orders) ;;
        audit) command=audit ;;
        *) local "$2=$3" ;;
    esac
    [ "$2" = log ] || log+=" ; $m ${use// ; / ; $m }"
    local bundle="== table t ; $table ; == script ; $script ; == log a ; $log"
    [[ "$2" != @(bundle|audit) ]] || bundle=$3
    [ "$2" != orders ] || bundle="$tables ; == script ; $3"
    in_lines "$bundle" > "$room/bundle"
    [ "${4%% *}" = accepted ] || status=1

    "$dmlab" "$command" < "$room/bundle" > "$room/stdout" 2> "$room/stderr"
    if [ "$?" = "$status" ] && is_told "$status" && cmp -s "$room/stdout" <(echo "$4"); then
        count "$1" ''
    else
        count "$1" "$(head -qn 1 "$room/stdout" "$room/stderr" | tr '\n' ' ')and not $4"
    fi
}

while IFS='|' read -r name part lines wanted; do
    case_of "$name" "$part" "$lines" "$wanted"
done < <(sed -E '/^# /d; s/ *\| */|/g' << END
no_part_is_bad            | use    | write 0 512 ; read 0 512 ; close             | accepted budget=13
# ---- the bundle
blank_line_alone          | bundle |                                              | refused bundle 0 NoScript
no_script                 | bundle | == table t ; x ; == log a ; == history       | refused bundle 0 NoScript
comment_before_heading    | bundle | # x ; ; \x20\t ; == script ; replay          | accepted budget=1
line_before_heading       | bundle | hello ; \xC3                                 | refused bundle 1 Stray
indented_comment          | bundle | # x ; \x20# x ; == script ; replay           | refused bundle 2 Stray
byte_above_ascii          | bundle | == script ; replay ; == log a ; \xC3         | refused bundle 4 NotText
delete_byte               | bundle | == script ; # \x7F ; replay                  | refused bundle 2 NotText
carriage_returns          | bundle | == script\x0D ; replay\x0D                    | refused bundle 1 NotText
letter_past_ascii         | bundle | == script ; replay ; == table t\xC3\xA4        | refused bundle 3 NotText
not_text_told_first       | bundle | == tables \x01                               | refused bundle 1 NotText
wrong_heading             | bundle | == tables t                                  | refused bundle 1 BadHeading
heading_without_a_blank   | bundle | ==script                                     | refused bundle 1 BadHeading
heading_with_a_word_more  | bundle | == script x                                  | refused bundle 1 BadHeading
heading_without_a_name    | bundle | == table                                     | refused bundle 1 BadHeading
name_with_a_dot_before    | bundle | == table .t                                  | refused bundle 1 BadHeading
indented_heading          | bundle | \x20 == script                               | refused bundle 1 Stray
byte_before_stray         | bundle | a\x80 ; == script                            | refused bundle 1 NotText
byte_before_twice         | bundle | == script ; == script\x7F                    | refused bundle 2 NotText
byte_before_a_later_twice | bundle | == script ; ; \x00 ; == script               | refused bundle 3 NotText
twice_before_a_later_byte | bundle | == script ; == script ; \x00                 | refused bundle 2 Twice
name_of_32_bytes          | bundle | == script ; replay ; == log $(printf %032d 7) ; $header | accepted budget=1
name_of_33_bytes          | bundle | == script ; == log $(printf %033d 7)         | refused bundle 2 BadHeading
script_twice              | bundle | == script ; replay ; == script               | refused bundle 3 Twice
table_twice               | bundle | == table t ; == log t ; == table t           | refused bundle 3 Twice
history_twice             | bundle | == history ; == script ; x ; == history      | refused bundle 4 Twice
log_twice                 | bundle | == log t ; == table t ; == log t             | refused bundle 3 Twice
first_fault_of_the_bundle | bundle | == script ; == script ; == tables            | refused bundle 2 Twice
bundle_before_its_parts   | bundle | == table t ; 0 8 ; == script ; == log        | refused bundle 4 BadHeading
history_not_read          | bundle | == script ; replay ; == history ; nonsense   | accepted budget=1
tables_before_script      | bundle | == script ; x ; == table t ; x               | refused table t 1 Args
script_before_logs        | bundle | == log a ; x ; == script ; x                 | refused script 1 BadLine
# ---- tables
leading_zeros             | table  | 00 008 linear /dev/ram00 00                  | accepted budget=13
device_by_padded_major    | table  | 0 8 linear 01:0 0                            | refused script 2 V1
comments_are_counted      | table  | # x ; ; 0 8 linear /dev/ram0 0 ; x           | refused table t 4 Args
indented_comment_is_read  | table  | \x20# x ; 0 8 linear /dev/ram0 0             | refused table t 1 Args
line_of_two_words         | table  | 0 8                                          | refused table t 1 Args
start_with_a_sign         | table  | +0 8 linear /dev/ram0 0                      | refused table t 1 Number
start_too_large           | table  | 1099511627777 8 linear /dev/ram0 0           | refused table t 1 Number
greatest_length           | table  | 0 1099511627776 linear /dev/ram0 0           | refused script 2 V4
length_too_large          | table  | 0 1099511627777 linear /dev/ram0 0           | refused table t 1 Number
length_zero               | table  | 0 0 linear /dev/ram0 0                       | refused table t 1 ZeroLength
first_line_not_at_zero    | table  | 1 8 linear /dev/ram0 0                       | refused table t 1 Gap
sectors_left_out          | table  | 0 4 linear /dev/ram0 0 ; 5 3 linear x 0      | refused table t 2 Gap
sectors_twice             | table  | 0 4 linear /dev/ram0 0 ; 3 4 linear x 0      | refused table t 2 Gap
length_zero_before_gap    | table  | 1 0 linear /dev/ram0 0                       | refused table t 1 ZeroLength
unknown_type              | table  | 0 8 striped 2 16 /dev/ram0 0                 | refused table t 1 Unknown
gap_before_unknown        | table  | 1 8 striped                                  | refused table t 1 Gap
linear_with_a_word_more   | table  | 0 8 linear /dev/ram0 x y                     | refused table t 1 Args
linear_offset_no_number   | table  | 0 8 linear nothing x                         | refused table t 1 Number
linear_offset_too_large   | table  | 0 8 linear /dev/ram0 1099511627777           | refused table t 1 Number
linear_offset_hexadecimal | table  | 0 8 linear /dev/ram0 0x10                    | refused table t 1 Number
linear_of_no_device       | table  | 0 8 linear nothing 0                         | refused script 2 V1
no_table_line             | table  | # 0 8 linear /dev/ram0 0                     | refused table t 0 Empty
table_of_64_lines         | table  | $(printf '%s 1 linear 1:0 0 ; ' {0..63})     | accepted budget=13
table_of_65_lines         | table  | $(printf '%s 1 linear 1:0 0 ; ' {0..63})x    | refused table t 65 TooManyLines
flakey_interval_of_zero   | table  | 0 8 flakey /dev/ram0 0 0 0                   | refused table t 1 Interval
flakey_up_no_number       | table  | 0 8 flakey /dev/ram0 0 x 0                   | refused table t 1 Number
flakey_of_three_words     | table  | 0 8 flakey /dev/ram0 0 1                     | refused table t 1 Args
flakey_wrong_count        | table  | 0 8 flakey /dev/ram0 0 0 1 2 error_reads     | refused table t 1 Args
flakey_unknown_feature    | table  | 0 8 flakey /dev/ram0 0 0 1 1 drop_reads      | refused table t 1 Feature
flakey_feature_twice      | table  | 0 8 flakey /dev/ram0 0 0 1 2 error_reads error_reads | refused table t 1 Conflict
flakey_byte_zero          | table  | 0 8 flakey /dev/ram0 0 0 1 5 corrupt_bio_byte 0 r 1 0 | refused table t 1 Value
dust_block_of_1000        | table  | 0 8 dust /dev/ram0 0 1000                    | refused table t 1 BlockSize
dust_of_two_words         | table  | 0 8 dust /dev/ram0 0                         | refused table t 1 Args
delay_above_an_hour       | table  | 0 8 delay /dev/ram0 0 3600001                | refused table t 1 TooLong
delay_of_four_words       | table  | 0 8 delay /dev/ram0 0 1 /dev/ram0            | refused table t 1 Args
delay_no_number           | table  | 0 8 delay /dev/ram0 0 4294967296             | refused table t 1 Number
zero_with_a_word          | table  | 0 8 zero x                                   | refused table t 1 Args
error_with_a_word         | table  | 0 8 error x                                  | refused table t 1 Args
# ---- the script
unknown_command           | script | ram 0 8 ; creat m t ; replay                 | refused script 2 BadLine
first_bad_line            | script | ram 0 8 ; # x ; ; create m t ; x ; y         | refused script 5 BadLine
indented_script_comment   | script | \x20# x ; ram 0 8 ; create m t ; replay      | refused script 1 BadLine
ram_after_create          | script | ram 0 8 ; create m t ; ram 1 8 ; replay      | refused script 3 BadLine
ram_number_too_large      | script | ram 256 8 ; create m t ; replay              | refused script 1 BadLine
ram_of_no_sector          | script | ram 0 0 ; create m t ; replay                | refused script 1 BadLine
ram_too_long              | script | ram 0 65537 ; create m t ; replay            | refused script 1 BadLine
ram_of_21_digits          | script | ram 0 000000000000000000008 ; replay         | refused script 1 BadLine
greatest_ram              | bundle | == script ; ram 255 65536 ; replay           | accepted budget=1
create_of_no_table_name   | script | ram 0 8 ; create m t/x ; replay              | refused script 2 BadLine
create_of_two_no_tables   | script | create --notable --notable                   | refused script 1 BadLine
message_of_no_word        | script | message m 0                                  | refused script 1 BadLine
message_of_three_words    | script | message m 0 a b c                            | refused script 1 BadLine
message_past_all_sectors  | script | message m 1099511627777 a                    | refused script 1 BadLine
sleep_too_long            | script | sleep 3600000001                             | refused script 1 BadLine
replay_with_a_word_more   | script | replay now ; none                            | refused script 1 BadLine
unknown_table             | script | ram 0 8 ; create m x ; replay                | refused script 2 V1
create_twice              | script | ram 0 8 ; create m t ; create m t ; replay   | refused script 3 V2
ram_twice                 | script | ram 0 8 ; ram 0 8 ; create m t ; replay      | refused script 2 V2
disk_too_small            | script | ram 0 7 ; create m t ; replay                | refused script 2 V4
replay_twice              | script | ram 0 8 ; create m t ; replay ; replay       | refused script 4 V10
no_replay                 | script | ram 0 8 ; create m t                         | refused script 0 V10
too_many_sectors          | script | ram 0 65536 ; ram 1 1                        | refused limits 0 V16
bad_line_before_limits    | bundle | == script ; $(printf 'ram %s 1 ; ' {1..17})x | refused script 18 BadLine
too_many_disks            | bundle | == script ; $(printf 'ram %s 1 ; ' {1..17})replay | refused limits 0 V16
most_disks                | bundle | == script ; $(printf 'ram 0 1 ; %.0s' {1..16})replay | refused script 2 V2
too_many_creates          | script | ram 0 8 ; $(printf 'create d%s t ; ' {1..33})replay | refused limits 0 V16
most_creates              | bundle | == script ; $(printf 'create m --notable ; %.0s' {1..32})replay | refused script 2 V2
too_many_commands         | bundle | == script ; $(printf 'sleep 0 ; %.0s' {1..1000})replay | refused limits 0 V16
most_commands             | bundle | == script ; $(printf 'sleep 0 ; %.0s' {1..999})replay | accepted budget=1000
too_many_tables           | bundle | $(printf '== table t%s ; 0 1 linear x 0 ; ' {1..65})== script ; replay | refused limits 0 V16
most_tables               | bundle | $(printf '== table t%s ; 0 1 linear x 0 ; ' {1..64})== script ; replay | accepted budget=1
too_many_logs             | bundle | == script ; replay$(printf " ; == log l%s ; $header" {1..65}) | refused limits 0 V16
most_logs                 | bundle | == script ; replay$(printf " ; == log l%s ; $header" {1..64}) | accepted budget=1
# ---- orders: of several rules that a line breaks, the least is told
unknown_table_in_use      | orders | ram 0 8 ; create m t8 ; create m x           | refused script 3 V1
unknown_device_too_small  | orders | ram 0 4 ; load q t8                          | refused script 2 V1
name_in_use_too_small     | orders | ram 0 8 ; create m t8 ; create m t16         | refused script 3 V2
past_the_disk_and_shorter | orders | ram 0 8 ; create m t8 ; load m past4         | refused script 3 V4
too_small_and_a_cycle     | orders | ram 0 8 ; create m t4 ; load m m             | refused script 3 V4
shorter_and_a_cycle       | orders | ram 0 8 ; create m t8 ; load m m4            | refused script 3 V5
shorter_then_replay_twice | orders | ram 0 8 ; create m t8 ; load m m4 ; replay ; replay | refused script 3 V5
suspended_at_an_early_wait | orders | ram 0 8 ; create m t8 ; suspend m ; wait     | refused script 4 V7
suspended_and_no_replay   | orders | ram 0 8 ; create m t8 ; suspend m            | refused script 0 V7
replay_twice_then_unknown | orders | replay ; replay ; create m t8                | refused script 2 V10
# ---- orders: each rule of the script
device_on_its_own_name    | orders | ram 0 8 ; create m m ; replay                | refused script 2 V1
device_on_its_own_number  | orders | ram 0 8 ; create m first ; replay            | refused script 2 V1
status_of_an_unknown_one  | orders | status q ; replay                            | refused script 1 V1
status_of_a_removed_one   | orders | ram 0 8 ; create m t8 ; replay ; remove m ; status m | refused script 5 V1
resume_after_a_clear      | orders | ram 0 8 ; create m --notable ; load m t8 ; clear m ; resume m | refused script 5 V3
load_after_a_clear        | orders | ram 0 8 ; create m --notable ; load m t8 ; clear m ; load m t8 ; resume m ; replay | accepted budget=8
suspend_without_a_table   | orders | create m --notable ; suspend m               | refused script 2 V3
message_without_a_table   | orders | create m --notable ; message m 0 x           | refused script 2 V3
status_without_a_table    | orders | create m --notable ; status m                | refused script 2 V3
table_without_a_table     | orders | create m --notable ; table m                 | refused script 2 V3
loaded_past_its_disk      | orders | ram 0 8 ; create m t8 ; load m t16           | refused script 3 V4
on_a_device_of_no_table   | orders | ram 0 8 ; create low --notable ; create top low | refused script 3 V4
longer_table_below        | orders | ram 0 16 ; create low t8 ; create top low ; load low t16 ; resume low ; replay | accepted budget=7
shorter_table_below       | orders | ram 0 16 ; create low t16 ; create top low ; load low t8 | refused script 4 V5
message_past_the_end      | orders | ram 0 8 ; create m dust ; message m 8 enable | refused script 3 V9
message_unknown           | orders | ram 0 8 ; create m dust ; message m 7 pong   | refused script 3 V9
message_to_linear         | orders | ram 0 8 ; create m t8 ; message m 7 enable   | refused script 3 V9
message_to_the_last_sector | orders | ram 0 8 ; create m dust ; message m 7 enable ; replay | accepted budget=3
wait_before_replay        | orders | wait                                         | refused script 1 V10
wait_twice                | orders | replay ; wait ; wait                         | refused script 3 V10
wait_after_replay         | orders | replay ; wait                                | accepted budget=2
lower_suspended_first     | orders | ram 0 8 ; create low t8 ; create top low ; suspend low ; suspend top | refused script 5 V6
upper_resumed_first       | orders | ram 0 8 ; create low t8 ; create top low ; suspend top ; suspend low ; resume top ; resume low ; replay | accepted budget=9
lower_resumed_first       | orders | ram 0 8 ; create low t8 ; create top low ; suspend top ; suspend low ; resume low ; resume top ; replay | accepted budget=9
swap_above_a_suspended    | orders | ram 0 8 ; create low t8 ; create top low ; load top low ; suspend low ; resume top | refused script 6 V6
resume_of_a_running_one   | orders | ram 0 8 ; create low t8 ; create top low ; suspend low ; resume top ; resume low ; replay | accepted budget=6
lowest_of_three_suspended | orders | ram 0 8 ; create low t8 ; create m low ; create top m ; suspend low ; suspend top | refused script 6 V6
suspended_twice           | orders | ram 0 8 ; create m t8 ; suspend m ; suspend m ; resume m ; replay | accepted budget=5
suspended_at_the_wait     | orders | ram 0 8 ; create m t8 ; replay ; suspend m ; wait | refused script 5 V7
resumed_before_the_wait   | orders | ram 0 8 ; create m t8 ; replay ; suspend m ; resume m ; wait | accepted budget=6
suspended_after_the_wait  | orders | ram 0 8 ; create m t8 ; replay ; wait ; suspend m | accepted budget=5
loaded_on_another         | orders | ram 0 8 ; create m t8 ; create real t8 ; load m real ; resume m ; replay | accepted budget=7
cycle_of_two_loaded       | orders | ram 0 8 ; create m t8 ; create real t8 ; load m real ; load real first | refused script 5 V11
cycle_through_a_live_one  | orders | ram 0 8 ; create m t8 ; create real m ; load m real | refused script 4 V11
cycle_by_a_cleared_table  | orders | ram 0 8 ; create m t8 ; create real t8 ; load m real ; clear m ; load real first | refused script 6 V11
cycle_of_three            | orders | ram 0 8 ; create m t8 ; create real m ; create low real ; load m low | refused script 5 V11
cycle_of_one              | orders | ram 0 8 ; create m t8 ; load m m             | refused script 3 V11
removed_below_a_live_one  | orders | ram 0 8 ; create m t8 ; create top m ; remove m | refused script 4 V8
removed_below_a_loaded_one | orders | ram 0 8 ; create m t8 ; create top t8 ; load top m ; remove m | refused script 5 V8
removed_after_a_clear     | orders | ram 0 8 ; create m t8 ; create top t8 ; load top m ; clear top ; remove m ; replay | accepted budget=6
removed_from_the_top      | orders | ram 0 8 ; create m t8 ; create top m ; remove top ; remove m ; replay | accepted budget=5
removed_and_made_again    | orders | ram 0 8 ; create m t8 ; remove m ; create m t8 ; table m ; replay | accepted budget=5
log_of_a_removed_device   | orders | ram 0 8 ; create m t8 ; replay ; remove m ; == log a ; $header ; $m add ; $m open ; /dev/ram0 open | refused script 4 V8
log_of_a_suspended_device | orders | ram 0 8 ; create m t8 ; replay ; suspend m ; == log a ; $header ; $m add ; $m open ; /dev/ram0 open | refused script 0 V7
log_before_a_late_remove  | orders | ram 0 8 ; create m t8 ; replay ; wait ; remove m ; == log a ; $header ; $m add ; $m open ; /dev/ram0 open | refused log a 4 V13
log_before_a_late_resume  | orders | ram 0 16 ; create m t8 ; replay ; load m t16 ; resume m ; == log a ; $header ; $m add ; $m open ; /dev/ram0 open | refused log a 4 V13
log_of_a_tableless_device | orders | create n --notable ; replay ; == log a ; $header ; /dev/mapper/n add | refused log a 2 V12
tableless_and_not_open    | orders | create n --notable ; replay ; == log a ; $header ; /dev/mapper/n read 0 512 | refused log a 2 V12
# ---- logs
header_alone              | log    | \tfio  version 2 iolog\x20                   | accepted budget=2
header_of_version_3       | log    | fio version 3 iolog ; $m add                 | refused log a 1 Header
header_with_zeros         | log    | fio version 02 iolog                         | refused log a 1 Header
header_after_a_blank_line | log    | \t ; $header                                 | refused log a 1 Header
header_with_a_word_more   | log    | $header x                                    | refused log a 1 Header
log_without_lines         | bundle | == script ; replay ; == log a                | refused log a 1 Header
line_of_one_word          | log    | $header ; add                                | refused log a 2 BadLine
blank_log_lines_counted   | log    | $header ; ; $m add ; \t ; $m wri             | refused log a 5 BadLine
comment_in_a_log          | log    | $header ; # x                                | refused log a 2 BadLine
comment_as_a_file         | log    | $header ; # add                              | refused log a 2 V12
unknown_action            | use    | wri                                          | refused log a 4 BadLine
add_with_numbers          | use    | add 0 512                                    | refused log a 4 BadLine
offset_too_large          | use    | write 9223372036854775808 512                | refused log a 4 BadLine
wait_too_long             | use    | wait 3600000001 0                            | refused log a 4 BadLine
longest_wait              | use    | wait 3600000000 18446744073709551615         | accepted budget=5
range_of_one_number       | use    | read 0                                       | refused log a 4 BadLine
offset_not_aligned        | use    | write 1 512                                  | refused log a 4 Unaligned
length_not_aligned        | use    | read 0 700                                   | refused log a 4 Unaligned
unaligned_before_empty    | use    | read 1 0                                     | refused log a 4 Unaligned
no_sector                 | use    | read 0 0                                     | refused log a 4 EmptyRange
trim_of_no_sector         | use    | trim 0 0 ; read 0 700                        | refused log a 4 EmptyRange
unaligned_before_a_bad_line | use    | read 0 700 ; wri                             | refused log a 4 Unaligned
most_sectors              | use    | read 0 1048576                               | refused log a 4 V14
too_many_sectors_at_once  | use    | read 0 1049088                               | refused log a 4 TooLong
line_faults_before_uses   | use    | open ; read 0 0                              | refused log a 5 EmptyRange
most_lines                | log    | $header$(printf " ; x add%.0s" {1..10000})   | refused log a 2 V12
too_many_lines            | log    | $header$(printf " ; x add%.0s" {1..10000}) ; x | refused log a 10002 TooManyLines
unknown_file              | log    | $header ; /dev/mapper/q add                  | refused log a 2 V12
file_by_number            | log    | $header ; 253:0 add                          | refused log a 2 V12
log_of_a_disk_by_number   | log    | $header ; 1:0 add                            | refused log a 2 V12
unknown_file_not_open     | log    | $header ; /dev/mapper/q read 0 512           | refused log a 2 V12
wait_of_an_unknown_file   | log    | $header ; /dev/mapper/q wait 100 0           | accepted budget=3
two_paths_of_one_file     | log    | $header ; /dev/dm-00 add ; $m open           | accepted budget=4
open_before_add           | log    | $header ; $m open                            | refused log a 2 V13
open_twice                | use    | open                                         | refused log a 4 V13
read_after_close          | use    | close ; read 0 512                           | refused log a 5 V13
open_of_a_disk_before_add | log    | $header ; /dev/ram0 open                     | refused log a 2 V13
open_by_two_paths         | log    | $header ; /dev/ram0 add ; /dev/ram0 open ; /dev/ram00 open | refused log a 4 V13
close_before_open         | log    | $header ; /dev/ram0 add ; /dev/ram0 close    | refused log a 3 V13
sync_before_open          | log    | $header ; /dev/ram0 add ; /dev/ram0 sync 0 0 | refused log a 3 V13
trim_after_close          | use    | close ; trim 0 512                           | refused log a 5 V13
not_open_past_the_end     | log    | $header ; /dev/ram0 read 4096 512            | refused log a 2 V13
opened_again              | use    | close ; open                                 | accepted budget=6
add_twice                 | use    | add                                          | accepted budget=5
whole_device              | use    | write 0000 04096                             | accepted budget=8
last_sector               | log    | $header ; /dev/dm-0 add ; $m open ; /dev/dm-0 read 3584 512 | accepted budget=8
past_the_last_sector      | log    | $header ; /dev/dm-0 add ; $m open ; /dev/dm-0 read 4096 512 | refused log a 4 V14
far_past_the_end          | use    | write 0 512 ; read 9223372036854775296 512   | refused log a 5 V14
# ---- histories
history_missing           | audit  | == script ; replay                           | refused history 0 Missing
history_of_no_event       | audit  | == script ; replay ; == history ; # x        | unfinished at 1
unknown_event             | audit  | == script ; replay ; == history ; ; # x ; go | refused history 3 BadLine
event_with_a_word_more    | audit  | == script ; replay ; == history ; control 1  | refused history 1 BadLine
event_without_its_number  | audit  | == script ; replay ; == history ; map        | refused history 1 BadLine
event_of_two_numbers      | audit  | == script ; replay ; == history ; map 1 2    | refused history 1 BadLine
event_in_capitals         | audit  | == script ; replay ; == history ; Control    | refused history 1 BadLine
event_number_with_a_sign  | audit  | == script ; replay ; == history ; serve +1   | refused history 1 BadLine
bio_number_of_21_digits   | audit  | == script ; replay ; == history ; finish 000000000000000000007 | refused history 1 BadLine
event_with_no_number_late | audit  | == script ; replay ; == history ; control ; # x ; ; \x20# x ; map | refused history 4 BadLine
indented_event_comment    | audit  | == script ; replay ; == history ; \x20# x    | refused history 1 BadLine
log_number_too_large      | audit  | == script ; replay ; == history ; line 4294967296 | refused history 1 BadLine
greatest_log_number       | audit  | == script ; replay ; == history ; line 4294967295 | not a run at 1
bio_number_too_large      | audit  | == script ; replay ; == history ; map 18446744073709551616 | refused history 1 BadLine
greatest_bio_number       | audit  | == script ; replay ; == history ; map 18446744073709551615 | not a run at 1
numbers_of_zero           | audit  | == script ; replay ; == history ; line 000   | not a run at 1
missing_before_no_replay  | audit  | == script                                    | refused history 0 Missing
missing_before_limits     | audit  | == script ; ram 0 65536 ; ram 1 1            | refused history 0 Missing
bad_event_before_limits   | audit  | == script ; ram 0 65536 ; ram 1 1 ; == history ; x | refused history 1 BadLine
bad_event_before_rules    | audit  | == script ; suspend m ; replay ; == history ; control ; x | refused history 2 BadLine
rules_before_the_run      | audit  | == script ; suspend m ; replay ; == history ; clock | refused script 1 V1
script_before_the_history | audit  | == script ; x ; replay ; == history ; x      | refused script 1 BadLine
headers_before_missing    | audit  | == script ; replay ; == log a                | refused log a 1 Header
bundle_before_the_history | audit  | == script ; == history ; x ; == script       | refused bundle 4 Twice
byte_in_a_history         | audit  | == script ; == history ; \xC3                | refused bundle 3 NotText
END
)

# wrong words read nothing of the input: all of it is there for who reads next
printf '%s\n' '== script' replay > "$room/bundle"
{
    "$dmlab" sim --seed 18446744073709551616 > "$room/stdout" 2> /dev/null
    status=$?
    cat > "$room/rest"
} < "$room/bundle"
if [ "$status" = 2 ] && [ ! -s "$room/stdout" ] && cmp -s "$room/bundle" "$room/rest"; then
    count wrong_words ''
else
    count wrong_words "status $status, and $(wc -c < "$room/rest") bytes are left to read"
fi

finish
