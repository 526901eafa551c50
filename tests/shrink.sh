#!/bin/bash
# Runs tools/shrink on bundles whose smallest one is known by reasoning, and on wrong words, files
# and tests. One line for each case that fails, and at the end 'N passed, M failed'. It wants the
# proved program.
cd "$(dirname "$0")/.." || exit 1
. tests/cases.sh
needs_program

# lines TEXT: the text, in which each ; stands for a line break, and a line break for a space
lines() {
    tr '\n' ' ' <<< "$1" | sed 's/ *; */\n/g; s/ *$/\n/'
}

# shrink BUNDLE WORDS..: runs the tool in the room. Its output, errors and status are kept
shrink() {
    (cd "$room" && "$OLDPWD/tools/shrink" "$@") > "$room/out" 2> "$room/err"
    status=$?
}

# case_of NAME BUNDLE WORDS WANTED: the smallest bundle is the wanted one. Both bundles are lines
# as above
case_of() {
    lines "$2" > "$room/given"
    read -r -a words <<< "$3"
    shrink given "${words[@]}"
    same "$1" "$(lines "$4")" "$(cat "$room/out")"
    same "$1_status" 0 "$status"
}

# refused NAME STATUS TOLD WORDS..: the tool writes no bundle, ends with the status, and tells the
# line
refused() {
    shrink "${@:4}"
    same "$1" "status $2: shrink: $3" "status $status: $(cat "$room/out")$(tail -n 1 "$room/err")"
}

# A bundle of 500 lines. Logs a, b and c write, sync and read the device `good`, and find what they
# wrote. Log d writes blocks of `bad`, which drops writes from the first second on. The write at
# two seconds is the lost one: the read on the last line of log d finds zeroes in its place.
large() {
    echo '# a bundle whose log d loses a write
== table good
0 512 linear /dev/ram0 0
512 512 linear /dev/ram0 512
== table bad
0 1024 flakey /dev/ram0 1024 1 3600 1 drop_writes
== table unused
0 8 zero
== script
ram 0 2048
ram 1 8
create good good
create bad bad
replay
suspend good
resume good
wait
status bad
status good'
    for log in a b c d; do
        device=$([ "$log" = d ] && echo bad || echo good)
        printf '== log %s\nfio version 2 iolog\n/dev/mapper/%s add\n/dev/mapper/%s open\n' "$log" "$device" "$device"
        for number in {0..30}; do
            offset=$(((number + 32 * $(printf '%d' "'$log") % 96) * 4096))
            [ "$log" = d ] && offset=$((number * 4096))
            [ "$log$number" = d29 ] && break
            printf "/dev/mapper/$device %s\n" "write $offset 4096" 'sync 0 0' 'wait 1000 0'
            [ "$log" = d ] || echo "/dev/mapper/$device read $offset 4096"
        done
    done
    printf '/dev/mapper/bad %s\n' 'wait 2000000 0' 'write 249856 4096' 'wait 1000 0' 'sync 0 0' 'read 0 4096' 'read 249856 4096'
}

# What has to be left of it: the log with its write and its read, the flakey line, always down and
# of one sector, and, where numbers stay, the headers of the logs before it, so that the write's
# bytes stay. The write is on line 92, which is 3 + 29 * 3 + 2, and the read on line 96.
blanks() {
    printf "%$1s" '' | tr ' ' '\n'
}
small() {
    echo '== table bad
0 1 flakey /dev/ram0 0 0 1 1 drop_writes
== script
ram 0 1

'
    echo 'create bad bad
replay'
    for log in a b c d; do
        printf '== log %s\nfio version 2 iolog\n' $log
    done
    printf '/dev/mapper/bad %s\n' add open
    blanks 88
    echo '/dev/mapper/bad write 0 512'
    blanks 3
    echo '/dev/mapper/bad read 0 512'
}

large > "$room/large"
same large_lines 500 "$(wc -l < "$room/large")"
began=$(date +%s)
shrink large --output-has '^92 write ok$' --output-has '^96 read [0-9]+x00$' --by-fault
took=$(($(date +%s) - began))
same large_shrunk "$(small)" "$(cat "$room/out")"
same large_in_a_minute yes "$([ $took -lt 60 ] && echo yes || echo "$took seconds")"
same large_told 'shrink: 500 lines before, 18 after; seed 0' "$(grep -o '^shrink: .* seed 0' "$room/err")"

shrink large --output-has '^[0-9]+ read [0-9]+x00$' --by-fault --renumber
same large_renumbered "$(small | sed '/^$/d; /^== log [abc]/,+1d')" "$(cat "$room/out")"


# the tutorial's bundle, of one seed and of several, with the history of the run
tutorial=$PWD/examples/tutorial/recorded.bundle
shrink "$tutorial" --seeds 0..3 --output-has '^[0-9]+ read .*x00$' --by-fault --renumber --history
same tutorial_shrunk "$(small | sed 's/bad/wal/g; /^$/d; /^== log [abc]/,+1d; s/log d/log wal/')" \
    "$(sed '/^== history/,$d' "$room/out")"
seed=$(sed -n 's/.* after; seed \([0-9]*\);.*/\1/p' "$room/err")
same tutorial_history "$("$dmlab" sim --seed "$seed" < "$room/out")" "$("$dmlab" audit < "$room/out")"
same tutorial_seeds '4 seeds for each bundle at most' "$(grep -o '[0-9]* seeds for each bundle at most' "$room/err")"

# the history is that of the run on which the test holds: a prompt one, where this is asked. A command
# gets the bundle with its history
shrink "$tutorial" --seeds 0..3 --lost --by-fault --prompt --history
same no_prompt_run_fails "1: shrink: $tutorial: the test doesn't hold on the bundle itself under the seeds 0 and 0 to 3" \
    "$status: $(cat "$room/out" "$room/err")"
shrink "$PWD/examples/lost_write.bundle" --lost --broken-sync --prompt --history
same prompt_history "$("$dmlab" sim --prompt --history < "$room/out" | sed -n '/^== history/,$p')" "$(sed -n '/^== history/,$p' "$room/out")"
same prompt_history_audited "$("$dmlab" sim --prompt < "$room/out")" "$("$dmlab" audit < "$room/out")"
shrink "$PWD/examples/lost_write.bundle" --history -- sh -c 'grep -q " write " {} && ! grep -q "^== history" {} && test {seed} = 0'
same history_refused "1: shrink: $PWD/examples/lost_write.bundle: the test doesn't hold on the smallest bundle with its history" \
    "$status: $(cat "$room/out")$(tail -n 1 "$room/err")"
shrink "$PWD/examples/lost_write.bundle" --history -- sh -c 'grep -q "write.*4096$" {}; test {seed} = 0'
same history_of_command "0 1" "$status $(grep -c '^== history' "$room/out")"

header='fio version 2 iolog'
log="== log a ; $header ; /dev/mapper/m add ; /dev/mapper/m open"

# The write on line 4 of the second log has bytes 16 * 2 + 4 = 36, hexadecimal 24.
two_logs="== table t ; 0 8 zero ; == script ; ram 0 8 ; create m t ; replay ; $log ; /dev/mapper/m read 0 512 ; == log b
    ; $header ; /dev/ram0 add ; /dev/ram0 open ; /dev/ram0 write 512 1024 ; /dev/ram0 sync 0 0 ; /dev/ram0 read 0 2048"
guilty="== log b ; $header ; /dev/ram0 add ; /dev/ram0 open ; /dev/ram0 write 0 512"
case_of numbers_stay "$two_logs" '--output-has ^6.read.*x24' \
    "== script ; ram 0 1 ; ; replay ; == log a ; $header ; $guilty ; ; /dev/ram0 read 0 512"
case_of number_of_a_log_stays "$two_logs" '--renumber --output-has ^[0-9]+.read.*x24' \
    "== script ; ram 0 1 ; replay ; == log a ; $header ; $guilty ; /dev/ram0 read 0 512"
case_of last_logs_go "$two_logs" '--output-has ^4.read' \
    "== table t ; 0 1 zero ; == script ; ; create m t ; replay ; $log ; /dev/mapper/m read 0 512"

three_rows="== table t ; # three ; 0 8 linear /dev/ram0 0 ; 8 8 error ; 16 8 zero ; == script ; ram 0 8 ; create m t ; replay ; $log"
case_of one_row "$three_rows ; /dev/mapper/m read 0 12288" --eio \
    "== table t ; 0 1 error ; == script ; ; create m t ; replay ; $log ; /dev/mapper/m read 0 512"
# a write whose bytes nobody reads is lost, since the first device drops it and the second doesn't
case_of lost_write "== table t ; 0 8 flakey /dev/ram0 0 0 1 1 drop_writes ; == table u ; 0 8 linear /dev/ram0 0 ; == script
    ; ram 0 8 ; create n u ; create m t ; replay ; $log ; /dev/mapper/n add ; /dev/mapper/n open ; /dev/mapper/n write 0 512
    ; /dev/mapper/m write 512 1024 ; /dev/mapper/m sync 0 0" --lost \
    "== table t ; 0 1 flakey /dev/ram0 0 0 1 1 drop_writes ; == script ; ram 0 1 ; ; create m t ; replay ; $log ; ; ; ;
    /dev/mapper/m write 0 512"
# a trim that reaches no disk is lost, too; one that is answered EIO isn't
case_of lost_trim "== table t ; 0 8 flakey /dev/ram0 0 0 1 1 drop_writes ; == table u ; 0 8 error ; == script ; ram 0 8
    ; create n u ; create m t ; replay ; $log ; /dev/mapper/n add ; /dev/mapper/n open ; /dev/mapper/n trim 0 512
    ; /dev/mapper/m trim 512 1024" --lost \
    "== table t ; 0 1 flakey /dev/ram0 0 0 1 1 drop_writes ; == script ; ram 0 1 ; ; create m t ; replay ; $log ; ; ; ;
    /dev/mapper/m trim 0 512"
# each finding by its option: bytes that a line changed, a read of what was written before, by a line
# that dropped what came later, what stands at two places of one disk, and a sync behind a lost write
device='/dev/mapper/m add ; /dev/mapper/m open'
found="== script ; ram 0 16 ; create m t ; replay ; == log a ; $header ; $device"
smallest="== script ; ram 0 1 ; create m t ; replay ; == log a ; $header ; $device"
case_of corrupt "== table t ; 0 16 flakey /dev/ram0 0 0 1 6 drop_writes corrupt_bio_byte 1 r 7 0 ; $found
    ; /dev/mapper/m write 0 512 ; /dev/mapper/m sync 0 0 ; /dev/mapper/m read 0 1024" '--corrupt --prompt' \
    "== table t ; 0 1 flakey /dev/ram0 0 0 1 5 corrupt_bio_byte 1 r 7 0 ; $smallest ; ; ; /dev/mapper/m read 0 512"
case_of corrupt_write "== table t ; 0 16 flakey /dev/ram0 0 0 1 5 corrupt_bio_byte 1 w 7 0 ; $found
    ; /dev/mapper/m read 0 1024 ; /dev/mapper/m write 512 1024 ; /dev/mapper/m sync 0 0" '--corrupt --by-fault' \
    "== table t ; 0 1 flakey /dev/ram0 0 0 1 5 corrupt_bio_byte 1 w 7 0 ; $smallest ; ; /dev/mapper/m write 0 512"
case_of stale "== table t ; 0 16 flakey /dev/ram0 0 0 1 1 drop_writes ; $found ; /dev/mapper/m sync 0 0
    ; /dev/mapper/m write 512 1024 ; /dev/mapper/m sync 0 0 ; /dev/mapper/m read 0 4096" '--stale --prompt' \
    "== table t ; 0 1 flakey /dev/ram0 0 0 1 1 drop_writes ; $smallest ; ; /dev/mapper/m write 0 512 ; ; /dev/mapper/m read 0 512"
case_of misplaced "== table t ; 0 8 linear /dev/ram0 0 ; 8 8 linear /dev/ram0 0 ; $found ; /dev/mapper/m write 4096 1024
    ; /dev/mapper/m sync 0 0 ; /dev/mapper/m read 0 4096" '--misplaced --prompt' \
    "== table t ; 0 1 linear /dev/ram0 0 ; 1 1 linear /dev/ram0 0 ; $smallest ; /dev/mapper/m write 512 512 ; ; /dev/mapper/m read 0 512"
case_of broken_sync "== table t ; 0 16 flakey /dev/ram0 0 0 1 1 drop_writes ; $found ; /dev/mapper/m sync 0 0
    ; /dev/mapper/m write 512 1024 ; /dev/mapper/m read 512 512 ; /dev/mapper/m sync 0 0" '--broken-sync --jobs 3' \
    "== table t ; 0 1 flakey /dev/ram0 0 0 1 1 drop_writes ; $smallest ; ; /dev/mapper/m write 0 512 ; ; /dev/mapper/m sync 0 0"
# each of two findings is wanted, and a line of the output may be one's row
case_of two_findings "== table t ; 0 16 flakey /dev/ram0 0 0 1 1 drop_writes ; $found ; /dev/mapper/m write 512 512
    ; /dev/mapper/m write 0 1024 ; /dev/mapper/m sync 0 0 ; /dev/mapper/m read 0 4096" '--lost --broken-sync --output-has ^lost.*5.write' \
    "== table t ; 0 1 flakey /dev/ram0 0 0 1 1 drop_writes ; $smallest ; ; /dev/mapper/m write 0 512 ; /dev/mapper/m sync 0 0"

case_of two_rows "$three_rows ; /dev/mapper/m read 4096 512 ; /dev/mapper/m read 8192 512" \
    '--output-has ^4.read.EIO --output-has ^5.read.512x00' \
    "== table t ; 0 1 error ; 1 1 zero ; == script ; ; create m t ; replay ; $log ; /dev/mapper/m read 0 512 ;
    /dev/mapper/m read 512 512"

# a listed block fails once dust is enabled, and the honest bundle has no such line; a delay has no
# part in it
case_of bad_block "== table d ; 0 64 delay /dev/mapper/m 0 50 ; == table t ; 0 64 dust /dev/ram0 0 512 ; == script ; ram 0 64
    ; create m t ; create d d ; message m 0 addbadblock 0 ; message m 0 countbadblocks ; message m 0 enable ; replay ; wait
    ; status m ; $log ; /dev/mapper/d add ; /dev/mapper/d open ; /dev/mapper/d write 4096 512 ; /dev/mapper/m read 0 4096" \
    '--eio --by-fault' "== table t ; 0 1 dust /dev/ram0 0 512 ; == script ; ram 0 1 ; create m t ; ; message m 0 addbadblock 0 ; ;
    message m 0 enable ; replay ; $log ; ; ; ; /dev/mapper/m read 0 512"

# what can go in pairs only: a close and the open beside it, a remove and the create beside it. Two
# bundles are smallest
lines "== table t ; 0 8 zero ; == script ; create m t ; remove m ; create m t ; replay ; $log ; /dev/mapper/m close
    ; /dev/mapper/m open ; /dev/mapper/m read 0 512" > "$room/given"
shrink given --output-has '^6 read'
same pairs "2 creates, 0 removes, 2 opens, 0 closes, 10 lines" "$(awk '$1 == "create" { creates++ } $1 == "remove" { removes++ }
    $2 == "open" { opens++ } $2 == "close" { closes++ } NF { lines++ }
    END { print creates + 1 " creates, " removes + 0 " removes, " opens + 1 " opens, " closes + 0 " closes, " lines " lines" }' \
    "$room/out")"

# device 1 becomes device 0 once device 0 isn't created; what only passes on is no longer between
case_of numbers_of_devices "== table t ; 0 8 zero ; == table p ; 0 4 linear 253:1 4 ; == table q ; 0 4 delay 253:2 0 5 ; == script
    ; create o t ; create m t ; create p p ; create q q ; replay ; == log a ; $header ; /dev/dm-3 add ; /dev/dm-3 open
    ; /dev/dm-3 read 512 512" '--prompt --output-has ^done.*now=5000$' \
    "== table t ; 0 1 zero ; == table q ; 0 1 delay 253:0 0 5 ; == script ; ; create m t ; ; create q q ; replay ; == log a ; $header
    ; /dev/dm-1 add ; /dev/dm-1 open ; /dev/dm-1 read 0 512"

# ---- two places at once
# a log moves down to what a linear line passes to: then nothing is above
case_of moved_down "== table t ; 0 8 zero ; == table p ; 0 4 linear 253:1 4 ; == table q ; 0 4 linear 253:2 0 ; == script
    ; create o t ; create m t ; create p p ; create q q ; replay ; == log a ; $header ; /dev/dm-3 add ; /dev/dm-3 open
    ; /dev/dm-3 read 512 512" '--output-has ^4.read' \
    "== table t ; 0 1 zero ; == script ; ; create m t ; ; ; replay ; == log a ; $header
    ; /dev/dm-0 add ; /dev/dm-0 open ; /dev/dm-0 read 0 512"
# to a line among several, and to a device that the log has open already
case_of moved_down_beside "== table t ; 0 8 error ; == table p ; 0 4 zero ; 4 8 linear /dev/mapper/m 0 ; == script ; create m t
    ; create p p ; replay ; == log a ; $header ; /dev/mapper/m add ; /dev/mapper/m open ; /dev/mapper/p add ; /dev/mapper/p open
    ; /dev/mapper/p read 3072 512 ; /dev/mapper/m read 1024 512" '--output-has ^6.read.EIO --output-has ^7.read.EIO' \
    "== table t ; 0 1 error ; == script ; create m t ; ; replay ; == log a ; $header ; /dev/mapper/m add ; /dev/mapper/m open ; ;
    ; /dev/mapper/m read 0 512 ; /dev/mapper/m read 0 512"
# a device is created with the table that was loaded behind it
case_of created_loaded "== table t ; 0 8 zero ; == table u ; 0 8 error ; == script ; create m t ; suspend m ; load m u ; resume m
    ; replay ; $log ; /dev/mapper/m read 0 512" --eio \
    "== table u ; 0 1 error ; == script ; create m u ; ; ; ; replay ; $log ; /dev/mapper/m read 0 512"
case_of created_without_a_table "== table u ; 0 8 error ; == script ; create --notable m ; reload m u ; resume m
    ; replay ; $log ; /dev/mapper/m read 0 512" --eio \
    "== table u ; 0 1 error ; == script ; create m u ; ; ; replay ; $log ; /dev/mapper/m read 0 512"
# a bad block of 4,096 bytes at sector 24 becomes one of a sector at 0, and the line before the dust line goes
case_of block_and_offset "== table t ; 0 8 linear /dev/ram0 0 ; 8 64 dust /dev/ram0 8 4096 ; == script ; ram 0 80 ; create m t
    ; message m 8 addbadblock 3 ; message m 8 enable ; replay ; $log ; /dev/mapper/m read 17408 512" '--eio --by-fault' \
    "== table t ; 0 1 dust /dev/ram0 0 512 ; == script ; ram 0 1 ; create m t ; message m 0 addbadblock 0 ; message m 0 enable ; replay
    ; $log ; /dev/mapper/m read 0 512"
# The first write has to reach the disk and the second has to be lost, so the line has to be up for
# a second and down for one, and the wait has to be a second
case_of up_and_down "== table t ; 0 8 flakey /dev/ram0 0 5 5 1 drop_writes ; == script ; ram 0 8 ; create m t ; replay ; $log
    ; /dev/mapper/m write 0 512 ; /dev/mapper/m wait 6500000 0 ; /dev/mapper/m write 0 512 ; /dev/mapper/m read 0 512" \
    '--stale --prompt --output-has ^stale.*1.4.0.1.6.0' \
    "== table t ; 0 1 flakey /dev/ram0 0 1 1 1 drop_writes ; == script ; ram 0 1 ; create m t ; replay ; $log
    ; /dev/mapper/m write 0 512 ; /dev/mapper/m wait 1000000 0 ; /dev/mapper/m write 0 512 ; /dev/mapper/m read 0 512"
# with --renumber two logs become one, and two ranges that have to be one move together
case_of two_logs_one "== table t ; 0 8 linear /dev/ram0 0 ; 8 8 flakey /dev/ram0 8 0 1 1 drop_writes ; == script ; ram 0 16
    ; create m t ; replay ; $log ; /dev/mapper/m write 5120 1024 ; == log b ; $header ; /dev/mapper/m add ; /dev/mapper/m open
    ; /dev/mapper/m wait 1000 0 ; /dev/mapper/m read 5120 1024" '--stale --prompt --renumber' \
    "== table t ; 0 1 flakey /dev/ram0 0 0 1 1 drop_writes ; == script ; ram 0 1 ; create m t ; replay ; $log
    ; /dev/mapper/m write 0 512 ; /dev/mapper/m read 0 512"

# ---- commands
tables="== table keep ; 0 8 zero ; 8 8 zero ; == table other ; 0 8 zero ; == script ; ram 0 8 ; replay"
kept="== table keep ; 0 1 zero ; == script ; ; replay"
case_of command_by_path "$tables" '-- grep -q keep {}' "$kept"
case_of command_by_stream "$tables" '-- grep -q keep' "$kept"
case_of command_by_both "$tables" '-- cmp -s {} -' '== script ; ; replay'
echo "$dmlab check < \"\$1\" > /dev/null || touch refused; grep -q keep \"\$1\"" > "$room/asks"
case_of refused_not_handed_on "$tables" '-- sh asks {}' "$kept"
same refused_never_seen '' "$(find "$room" -mindepth 1 -name '*refused*')"
same refused_counted yes "$(grep -q ', [1-9][0-9]* bundles refused' "$room/err" && echo yes)"

# the seed is searched anew, and told
case_of other_seed "$tables" '--seed 3 --seeds 5..9 -- test {seed} = 7' '== script ; ; replay'
same other_seed_told 'after; seed 7;' "$(grep -o 'after; seed .;' "$room/err")"

# a command that takes too long doesn't hold, and what it started is ended
echo '[ -e begun ] || { touch begun; exit 0; }
(sleep 2; touch late) & wait' > "$room/slow"
case_of slow "== script ; replay ; wait" '--seconds 0.6 -- sh slow' '== script ; replay ; wait'
same slow_told yes "$(grep -q ', [1-9][0-9]* slow' "$room/err" && echo yes)"
sleep 2
same slow_ended '' "$(find "$room" -mindepth 1 -name '*late*')"

# ---- the file for the bundle
lines "$tables" > "$room/given"
shrink given -o given -- grep -q keep
same output_file "$(lines "$kept")" "$(cat "$room/given")"
same output_alone '' "$(cat "$room/out")"
refused no_folder 1 'nowhere/file: no file can be written there' given -o nowhere/file -- true
refused no_plain_file 1 '/dev/null: no file can be written there' given -o /dev/null -- true
refused folder 1 '.: no file can be written there' given -o . -- true
echo before > "$room/before"
refused not_half_written 1 "given: the test doesn't hold on the bundle itself: it ended with status 1" given -o before -- false
same file_as_before before "$(cat "$room/before")"

# an interrupt gives the smallest bundle so far: the command interrupts the tool, which is the
# parent, at its third call
cat > "$room/interrupts" << 'END'
echo >> calls; [ "$(wc -l < calls)" = 3 ] && kill -s INT "$PPID" && sleep 5; grep -q keep
END
lines "$tables" > "$room/given"
(cd "$room" && python3 -c 'import os, signal, sys; signal.signal(signal.SIGINT, signal.default_int_handler)
os.execv(sys.argv[1], sys.argv[1:])' "$OLDPWD/tools/shrink" given -- sh interrupts) > "$room/out" 2> "$room/err"
same interrupted_status 130 $?
same interrupted_told 'shrink: interrupted: more may go' "$(head -n 1 "$room/err")"
same interrupted_output "yes accepted" "$(grep -q keep "$room/out" && echo yes) $("$dmlab" check < "$room/out" | sed 's/ .*//')"

# the same where several runs go on at once: none of them is left
cat > "$room/slowly" << END
#!/bin/sh
[ "\$1" = check ] || { touch began; sleep 0.3; }
exec "$dmlab" "\$@"
END
chmod +x "$room/slowly"
(cd "$room" && exec python3 -c 'import os, signal, sys; signal.signal(signal.SIGINT, signal.default_int_handler)
os.execv(sys.argv[1], sys.argv[1:])' "$OLDPWD/tools/shrink" large --program ./slowly --stale --jobs 3) > "$room/out" 2> "$room/err" &
for _ in {1..500}; do
    [ -e "$room/began" ] && break
    sleep 0.02
done
sleep 1
kill -s INT $!
wait $!
same interrupted_jobs_status 130 $?
same interrupted_jobs_told 'shrink: interrupted: more may go' "$(head -n 1 "$room/err")"
same interrupted_jobs_output 4 "$("$dmlab" sim --stale --fail < "$room/out" > "$room/seen" 2>&1; echo $?)"

# ---- the page: each command of docs/SHRINK.md with a bundle behind it writes that bundle. It runs ./dmlab, which has to be built
while read -r -d '%' block; do
    [[ $block == tools/shrink* ]] && command=$block
    [[ $block == '=='* ]] && same page "$block" "$(bash -c "$command" 2> "$room/err")"
done < <(awk '/^```/ { inside = !inside; if (!inside) printf "%%"; next } inside' docs/SHRINK.md)

# ---- refusals
while IFS='|' read -r name status bundle words told; do
    lines "$bundle" > "$room/given"
    read -r -a words <<< "$words"
    refused "$name" "$status" "$told" "${words[@]}"
done < <(sed -E '/^# /d; s/ *\| */|/g' << END
no_such_file     | 1 | $tables | nothing --eio            | nothing: No such file or directory
a_folder         | 1 | $tables | . --eio                  | .: Is a directory
doesnt_hold      | 1 | $tables | given --eio              | given: the test doesn't hold on the bundle itself
no_seed_holds    | 1 | $tables | given --eio --seeds 2..4 | given: the test doesn't hold on the bundle itself under the seeds 0 and 2 to 4
too_slow         | 1 | $tables | given --seconds 0.2 -- sleep 5 | given: the test doesn't hold on the bundle itself: it took more than 0.2 seconds
no_command       | 1 | $tables | given -- ./nothing       | ./nothing: No such file or directory
no_program       | 1 | $tables | given --program nothing --eio | nothing: no program: ./build makes it, --program tells another
refused_table    | 1 | == table t ; 0 8 zero ; 8 8 mirror ; == script ; replay | given --eio | given, line 3: refused table t 2 Unknown
refused_script   | 1 | == script ; ram 0 8 ; create m t ; replay | given --eio | given, line 3: refused script 2 V1
refused_log      | 1 | == script ; replay ; == log a ; fio version 3 iolog | given --eio | given, line 4: refused log a 1 Header
refused_at_0     | 1 | == script ; ram 0 8  | given --eio | given, line 1: refused script 0 V10
refused_bundle   | 1 | # a ; ä ; == script ; replay | given --eio | given, line 2: refused bundle 2 NotText
no_script        | 1 | == log a ; $header   | given --eio | given: refused bundle 0 NoScript
# ---- wrong words
no_test          | 2 | $tables | given                    | error: a test is wanted: either a command behind --, or --output-has or a finding
two_tests        | 2 | $tables | given --eio -- true      | error: a test is wanted: either a command behind --, or --output-has or a finding
no_bundle        | 2 | $tables | --eio                    | error: the following arguments are required: bundle
two_bundles      | 2 | $tables | given given --eio        | error: unrecognized arguments: given
seeds_for_none   | 2 | $tables | given --seeds 0..4 -- true | error: --seeds and --history go with --output-has, with a finding, or with a command that has {seed}
history_of_none  | 2 | $tables | given --history -- true  | error: --seeds and --history go with --output-has, with a finding, or with a command that has {seed}
fault_of_none    | 2 | $tables | given --by-fault -- true | error: --by-fault goes with --output-has or a finding
prompt_of_none   | 2 | $tables | given --prompt -- true   | error: --prompt goes with --output-has, with a finding, or with --history
no_jobs          | 2 | $tables | given --eio --jobs 0     | error: argument --jobs: invalid read_jobs value: '0'
seeds_backwards  | 2 | $tables | given --eio --seeds 4..2 | error: argument --seeds: invalid read_seeds value: '4..2'
too_many_seeds   | 2 | $tables | given --eio --seeds 0..10000 | error: argument --seeds: invalid read_seeds value: '0..10000'
no_seed          | 2 | $tables | given --eio --seed x     | error: argument --seed: invalid read_seed value: 'x'
no_time          | 2 | $tables | given --eio --seconds 0  | error: argument --seconds: invalid read_seconds value: '0'
no_pattern       | 2 | $tables | given --output-has (     | error: argument --output-has: '(': missing ), unterminated subpattern at position 0
short_word       | 2 | $tables | given --ei               | error: unrecognized arguments: --ei
END
)

finish
