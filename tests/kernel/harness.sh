#!/bin/bash
# Checks the host's side of tools/against_kernel without a boot: the orders that it makes of a
# bundle, the report that it makes of a guest's answers, and how it compares the report with
# dmlab's. One line for each case that fails, and at the end 'N passed, M failed'. It wants the
# proved program.
cd "$(dirname "$0")/../.." || exit 1
. tests/cases.sh
needs_program

# python CODE: runs a few lines with the tool's modules
python() {
    PYTHONPATH=tools ROOM=$room python3 -B -c "
import os, sys
from dmlab_tools import kernel_answers, kernel_compare, kernel_image, kernel_orders
room = os.environ['ROOM']
read = lambda name: open(os.path.join(room, name), encoding='ascii').read()
$1" 2>&1
}

cat > "$room/bundle" << 'END'
# a remark
== table t
# of two lines
0 8 linear /dev/ram0 0

8 8 delay 1:1 0 250
== script
ram 0 8
ram 1 8
# the device
create m t
load m t
message m 0 addbadblock 1
replay
sleep 1000
status m
remove m
wait
== log a
fio version 2 iolog
/dev/mapper/m add
/dev/mapper/m open
/dev/mapper/m wait 5000 0
/dev/mapper/m write 512 1024
/dev/mapper/m wait 99 0

/dev/mapper/m read 0 4096
/dev/mapper/m close
== log b
fio version 2 iolog
/dev/ram1 add
/dev/ram1 open
/dev/dm-0 add
/dev/dm-0 open
/dev/ram1 trim 0 512
/dev/dm-0 datasync 0 0
END

# what the guest answers for it: a refused message, a command that waits, a short read and an
# operation that waits
cat > "$room/answers" << 'END'
linux 6.12.95+deb12-amd64
dmsetup Library version:   1.02.185 (2022-05-18)
dmsetup Driver version:    4.48.0
target delay            v1.4.0
target linear           v1.4.0
bundle 1
command 4 0
command 5 0
command 6 1
err device-mapper: message ioctl on m  failed: Invalid argument
err Command failed.
kernel core: unrecognised message sent to 253:200
command 9 0
out 0 8 linear 
out 8 8 delay 0 0 0
command 10 -1
log 1
answer 5 5100 ok
answer 8 5200 short 0
log 2
answer 6 10 EIO
end 1 clean
off
END

# The limits are the waits of 6 ms, 250 ms and an eighth for each of the logs' 16 lines, and 10 s; and twice as much and
# 1 s for each command.
same orders 'orders/7/limit
39012
orders/7/log.1
file /dev/mapper/m
p 4 0 5000 0 0
w 5 0 512 1024 21
p 6 0 0 0 0
r 8 0 0 4096 24
orders/7/log.2
file /dev/dm-0
file /dev/ram1
t 6 1 0 512 38
s 7 0 0 0 39
orders/7/script
0 limit 14506
1 disk 0 8
2 disk 1 8
4 dmsetup create m /orders/7/t.t
5 dmsetup load m /orders/7/t.t
6 dmsetup message m 0 addbadblock 1
7 replay
8 sleep 1000
9 dmsetup status m
10 dmsetup remove m
11 wait
orders/7/t.t
# of two lines
0 8 linear /dev/ram0 0

8 8 delay 253:201 0 250' "$(python '
for name, text in sorted(kernel_orders.orders(read("bundle"), 7).items()):
    print(name + "\n" + text, end="")')"

# reported REFUSED: the versions and the report of the answers
reported() {
    python "
head, blocks = kernel_answers.split_answers(read('answers').splitlines())
report = kernel_answers.report(read('bundle'), kernel_answers.read_outcome(blocks[0]), $1)
print('\n'.join(kernel_answers.versions(head) + report))" | sed 's/, 20..-..-..$/, DATE/'
}

accepted='# Linux 6.12.95+deb12-amd64, DATE
# targets: delay 1.4.0, linear 1.4.0
# dmsetup 1.02.185
script 6 refused EINVAL core: unrecognised message sent to 1:0
script 9 0 8 linear
script 9 8 8 delay 0 0 0
script 10 waits
log a
5 write ok
8 read short 0
log b
6 trim EIO
7 datasync waits'
same report "$accepted" "$(reported False)"
same report_of_a_refused "${accepted/script 6/$'script 4 taken\nscript 5 taken\nscript 6'}" "$(reported True)"

# A guest that stops in the middle of a bundle has answered those before it alone.
same unclean '1 end' "$(python '
head, blocks = kernel_answers.split_answers(["linux 6", "bundle 1", "log 1", "end 1 unclean", "bundle 2", "log 1"])
print(len(blocks), "end")')"

# The numbers of the disks, there and back again.
same numbers '0 8 linear 253:455 0
0 8 dust 1:0 0 1024
0 8 linear 253:1 0' "$(python '
print(kernel_orders.into_guest("0 8 linear 1:255 0"))
print(kernel_answers.from_guest("0 8 dust 253:200 0 1024"))
print(kernel_answers.from_guest("0 8 linear 253:1 0"))')"

# An archive holds its files at places that are multiples of four bytes, each folder before what is
# in it.
same archive '0 True True' "$(python '
text = kernel_image.archive({"a/b/c": (b"12345", False), "init": (b"x", True)})
print(len(text) % 4, text.find(b"a\0") < text.find(b"a/b\0") < text.find(b"a/b/c\0"), b"TRAILER!!!" in text)')"

# Writes of a recording have the place of their data in it: behind the head of 512 bytes and the entry's own 512, and
# behind the data of those before. A device that differs, or a fault, is told.
same recorded_orders 'd 5 0 1024 3072 1024
d 7 0 0 1024 4608
script 0 digest /dev/mapper/disk' "$(python '
from dmlab_tools import kernel_recorded, recorded_disks, recorded_scene, recording_file, recording_lines
recording = recording_file.read_recording("examples/filesystem/db.log.xz")
text = open("examples/filesystem/db.bundle", encoding="ascii").read()
span = recording_lines.span_of(recording, None, None)
maker = recorded_disks.Maker(recorded_scene.Scene("db.bundle", text), recording, span)
files = kernel_recorded.orders_of(maker, 1)
log = [it for it in files["orders/1/log.1"][0].decode().splitlines() if it.startswith("d ")]
print(*log[:2], sep="\n")
print("script", files["orders/1/script"][0].decode().splitlines()[-1])')"
same recorded_verdicts 'same a
dmlab a, Linux b
dmlab a, Linux a fault of the guest
dmlab a, Linux ' "$(python '
from dmlab_tools import kernel_recorded
for block in (["digest 0 a"], ["digest 0 b"], ["digest 0 a", "fault of the guest"], []):
    print(kernel_recorded.verdict("a", block))')"
same recorded_pace "against_kernel: examples/filesystem/db.bundle: its log has a wait of 1000 us, and the guest needs 100000: --pace 200ms
2" "$(tools/against_kernel --recording examples/filesystem/db.log.xz examples/filesystem/db.bundle 2>&1; echo "$?")"

# Where fio replays, it runs in place of the replay, and is waited for by as many milliseconds more as its longest wait
# has, which is 3000. The waits are 5 ms by dmlab.
same fio_orders '0 limit 13005
1 disk 0 64
2 dmsetup create m /orders/1/t.m
3 run fio --read_iolog=/orders/1/iolog
3 tell /tmp/fio_lat.1.log
4 wait
orders/1/iolog orders/1/limit orders/1/script orders/1/t.m
30010
fio version 2 iolog' "$(python '
from dmlab_tools import kernel_fio
kernel_fio.RUN, kernel_fio.WORDS, kernel_fio.TOLD = "fio", (), ()
text = open("tests/kernel/fio_waits/bundle", encoding="ascii").read()
files = kernel_fio.orders(text, 1)
print(files["orders/1/script"], end="")
print(*sorted(files))
print(files["orders/1/limit"] + files["orders/1/iolog"].splitlines()[0])')"

# What fio issued: the trim is dropped, the read fails, and the write behind it is never begun.
same fio_issued '4 write ok 12000
6 sync ok None
7 read EIO None
bad ddir: 2
fio: io_u error on file /dev/m: Input/output error: read offset=4096, buflen=512' "$(python '
from dmlab_tools import kernel_issued
from dmlab_tools.kernel_orders import Part
log = "fio version 2 iolog,m add,m open,m write 0 4096,m trim 0 512,m sync 0 0,m read 4096 512,m write 0 512"
out = [
    "io    7 queue: io_u 0x1: off=0x0,len=0x1000,ddir=1,file=m",
    "io    7 complete: io_u 0x1: off=0x0,len=0x1000,ddir=1,file=m",
    "io    7 queue: io_u 0x1: off=0x0,len=0x0,ddir=3,file=m",
    "io    7 complete: io_u 0x1: off=0x0,len=0x0,ddir=3,file=m",
    "io    7 queue: io_u 0x1: off=0x1000,len=0x200,ddir=0,file=m",
    "io    7 close ioengine psync",
    "12, 345, 1, 4096, 0, 0",
]
error = "fio: io_u error on file /dev/m: Input/output error: read offset=4096, buflen=512"
fio = kernel_answers.Command(1, out, ["bad ddir: 2", error, "fio: pid=7, err=5/file:io_u.c:1876"], [])
for line, it in kernel_issued.by_line(Part("log", "a", log.split(",")), kernel_issued.issued(fio)).items():
    print(line, it.kind, it.result, it.moment)
print(*kernel_issued.sayings(fio), sep="\n")')"

# Scenarios that are compared with the program.
# scenario NAME BUNDLE TRANSCRIPT [DIFFERS]: a folder of a scenario
scenario() {
    mkdir -p "$room/$1"
    printf '%b' "$2" > "$room/$1/bundle"
    printf '%b' "# Linux 6.12.95, 2026-11-24\n$3" > "$room/$1/linux"
    [ -z "$4" ] || printf '%b' "$4" > "$room/$1/differs"
}

# compared NAME STATUS TEXT: how the tool compares a scenario
compared() {
    came=$(tools/against_kernel --recorded "$room/$1" 2>&1)
    same "$1" "$2 $1: $3" "$? $came"
}

table='== table t\n0 8 linear /dev/ram0 0\n== script\nram 0 8\ncreate m t\ntable m\nreplay\n'
log='== log a\nfio version 2 iolog\n/dev/mapper/m add\n/dev/mapper/m open\n/dev/mapper/m read 0 512\n'
scenario agrees "$table$log" 'script 3 0 8 linear 1:0 0\nlog a\n4 read 512x00\n'
compared agrees 0 'the same'
scenario new_difference "$table$log" 'script 3 0 8 linear 1:0 0\nlog a\n4 read EIO\n'
compared new_difference 1 'differs, and no entry of docs/KERNEL.md says so: 1 line
  < a 4 read 512x00
  > a 4 read EIO
  = no entry'
scenario recorded "$table$log" 'script 3 0 8 linear 1:0 0\nlog a\n4 read EIO\n' \
    'some-entry\n< 4 read 512x00\n> 4 read EIO\n'
compared recorded 0 "differs as docs/KERNEL.md says at \`some-entry\`
  < 4 read 512x00
  > 4 read EIO"
scenario recorded_otherwise "$table$log" 'script 3 0 8 linear 1:0 0\nlog a\n4 read 512x07\n' \
    'some-entry\n< 4 read 512x00\n> 4 read EIO\n'
compared recorded_otherwise 1 'differs, and no entry of docs/KERNEL.md says so: 1 line
  < a 4 read 512x00
  > a 4 read 512x07
  = no entry'
scenario refused_by_both "${table/0 8 linear/1 8 linear}$log" 'script 2 refused EINVAL\n'
compared refused_by_both 0 'Linux refuses it too: refused table t 1 Gap'
scenario refused_by_dmlab "${table/ram 0 8/ram 0 7}$log" 'script 2 taken\n'
compared refused_by_dmlab 1 'differs, and no entry of docs/KERNEL.md says so
  < refused script 2 V4
  > script 2 taken'

# Line by line: replies and statuses in other words are no difference; of two lines that differ one entry says one, and
# none the other.
dusty=${table/linear \/dev\/ram0 0/dust \/dev\/ram0 0 512}
scenario other_words "${dusty/table m/message m 0 addbadblock 1}$log" \
    'script 3 kernel: dust: dust_add_block: badblock added at block 1\nlog a\n4 read 512x00\n'
compared other_words 0 'the same in other words'
scenario line_by_line "${table/linear \/dev\/ram0 0/error}$log/dev/mapper/m sync 0 0\n" \
    'script 3 0 8 error\nlog a\n4 read 512x00\n5 sync ok\n'
compared line_by_line 1 "differs, and no entry of docs/KERNEL.md says so: 1 line
  < a 4 read EIO
  > a 4 read 512x00
  = no entry
  < a 5 sync EIO
  > a 5 sync ok
  = \`flush-error-line\`"

# A flakey line that has a chance of 0 alone fails all in Linux. Another answer has no entry, as dmlab shows by the line
# as Linux takes it.
never="${table/linear \/dev\/ram0 0/flakey \/dev\/ram0 0 0 1 2 random_read_corrupt 0}$log"
printed="  < script 3 0 8 flakey 1:0 0 0 1 2 random_read_corrupt 0
  > script 3 0 8 flakey 1:0 0 0 1 2 error_reads error_writes
  = \`flakey-chance-0\`"
scenario as_linux_takes_it "$never" 'script 3 0 8 flakey 1:0 0 0 1 2 error_reads error_writes\nlog a\n4 read EIO\n'
compared as_linux_takes_it 0 "differs as docs/KERNEL.md says at \`flakey-chance-0\`
$printed
  < a 4 read 512x00
  > a 4 read EIO
  = \`flakey-chance-0\`"
scenario as_nobody_takes_it "$never" 'script 3 0 8 flakey 1:0 0 0 1 2 error_reads error_writes\nlog a\n4 read 512x07\n'
compared as_nobody_takes_it 1 "differs, and no entry of docs/KERNEL.md says so: 1 line
$printed
  < a 4 read 512x00
  > a 4 read 512x07
  = no entry"
scenario as_dmlab_takes_it "$never" 'script 3 0 8 flakey 1:0 0 0 1 2 error_reads error_writes\nlog a\n4 read 512x00\n'
compared as_dmlab_takes_it 1 "differs, and no entry of docs/KERNEL.md says so: 1 line
$printed
  < a 4 read EIO
  > a 4 read 512x00
  = no entry"

# A report that another seed gives is no difference: in examples/slow_disk the status races the replay.
scenario race '' 'script 5 0 64 delay 0 1 0\nscript 8 0 64 linear 1:1 0\nlog app\n4 write ok\n5 read 512x00\n'
cp examples/slow_disk.bundle "$room/race/bundle"
came=$(tools/against_kernel --recorded "$room/race" 2>&1)
same race '0 race: the same by the seed' "$? ${came% *}"

# So may a race go in another way, in which an entry tells of the one line that differs, if no seed gives the report:
# the seed with the fewest lines that no entry tells of is compared. Here the read comes right behind the release.
scenario release '' 'script 5 0 64 delay 0 1 0\nscript 8 0 64 linear 1:1 0\nlog app\n4 write ok\n5 read 512x14\n'
cp examples/slow_disk.bundle "$room/release/bundle"
echo '# moments of app: 4 0.005, 5 0.005' >> "$room/release/linux"
compared release 0 "differs as docs/KERNEL.md says at \`behind-a-release\`
  < app 5 read 512x00
  > app 5 read 512x14
  = \`behind-a-release\`"

# Where the moments show that writes came right behind a release, bytes that are read later are told, though no write is
# answered otherwise.
scenario bytes_behind '' ''
cp tests/kernel/swap_with_eight_requests_behind/{bundle,linux} "$room/bytes_behind"
printf '# moments of l%s: 4 0.409, 5 0.409\n' 0 1 2 3 4 5 6 7 >> "$room/bytes_behind/linux"
echo '# moments of end: 7 1.500, 8 1.500' >> "$room/bytes_behind/linux"
came=$(tools/against_kernel --recorded "$room/bytes_behind" 2>&1)
same bytes_behind "0 bytes_behind: differs as docs/KERNEL.md says at \`behind-a-release\`" "$? ${came%%$'\n'*}"

# Moments are compared: up to a tenth of a second, and what a long delay's timer is rounded up.
held=${table/linear \/dev\/ram0 0/delay \/dev\/ram0 0 20000}$log
told='script 3 0 8 delay 1:0 0 20000\nlog a\n4 read 512x00\n'
scenario in_time "$held" "$told# moments of a: 4 21.800\n"
compared in_time 0 'the same'
scenario late "$held" "$told# moments of a: 4 22.300\n"
compared late 1 'differs, and no entry of docs/KERNEL.md says so: 1 line
  < a 4 read at 20.000 s
  > a 4 read at 22.300 s
  = no entry'

# A guest that does nothing more is ended, here after some 3 s; each bundle that came to its end is told before.
same watched '1
2
ended' "$(python '
from dmlab_tools import kernel_boot
kernel_boot.START, kernel_boot.EACH, kernel_boot.PART, kernel_boot.IDLE = 0, 0.01, 0.1, 10
with open(os.path.join(room, "answers"), "w", encoding="ascii") as file:
    file.write("linux 6\nbundle 1\nend 1 clean\nbundle 2\nend 2 clean\nbundle 3\n")
watch = kernel_boot.Watch(os.path.join(room, "answers"), [3, 3, 3], lambda number: print(number, flush=True))
kernel_boot.watched(["sleep", "600"], room, watch)
print("ended")')"

# Each difference that is recorded is known by the conditions alone, at the entries that the record names; replies and
# statuses in other words aside, which are translated. And the page has each entry that a condition belongs to.
same conditions '' "$(python '
words = {"dust-replies", "dust-list-unchanged", "flakey-status"}
for name in sorted(os.listdir("tests/kernel")):
    folder = os.path.join("tests/kernel", name)
    wanted = set(kernel_compare.read_differs(folder)[0]) - words
    if wanted:
        text, told = (open(os.path.join(folder, it), encoding="ascii").read() for it in ("bundle", "linux"))
        verdict = kernel_compare.judge(text, "", told.splitlines())
        if verdict.kind != "known" or wanted - set(verdict.text.replace(chr(96), " ").split()):
            print(name, *sorted(wanted), verdict.text)')"
same entries '' "$(python '
from dmlab_tools import kernel_entries, kernel_refusals
page = open("docs/KERNEL.md", encoding="ascii").read()
names = [*kernel_entries.CONDITIONS, *(name for name, _ in kernel_refusals.RULES.values())]
print(*(name for name in names if f"### {chr(96)}{name}{chr(96)}\n" not in page))')"

# Of the random transcripts in which one answer is changed so many are told, as the page says.
same wrong_answers '18 known, 179 new, 3 same' "$(tests/kernel/wrong_answers.py | tail -n 1)"
same wrong_answers_page 1 "$(grep -c 'Of the other 197 the tool lists 179 as new, and 18 pass for an entry' docs/KERNEL.md)"

# Random bundles: the seed decides them, and dmlab accepts each.
same random 'True True' "$(python '
from dmlab_tools import kernel_random
one, other = (list(kernel_random.scenarios(7, 2)) for _ in range(2))
reports = [kernel_compare.dmlab_report(text) for _, text in one]
print(one == other, not any(map(kernel_compare.is_refused, reports)))')"

# wrong NAME STATUS WORDS..: words that the tool doesn't take
wrong() {
    tools/against_kernel "${@:3}" > "$room/out" 2>&1
    same "$1" "$2" "$?"
}
wrong no_words 2
wrong unknown_word 2 --fast "$room/bundle"
wrong no_folder 2 --recorded
wrong no_such_folder 2 --recorded "$room/none"
wrong fio_of_recorded 2 --fio --recorded "$room/bundle"

# A bundle that no guest can run is told before anything is fetched.
same unfit "it has no one script
its script has a line that is no command: mkfs m
a log has a line that the guest doesn't know: /dev/ram0 read 0 1048577
a log has a line that the guest doesn't know: /dev/ram0 write 0 eight" "$(python '
log = "== script\nram 0 8\n== log a\nfio version 2 iolog\n"
more = (log + "/dev/ram0 read 0 1048577\n", log + "/dev/ram0 write 0 eight\n")
for text in ("== log a\n", "== script\nmkfs m\n", *more):
    try:
        kernel_orders.orders(text, 1)
    except kernel_orders.Unfit as why:
        print(why)')"
same unfit_for_fio 'fio replays bundles of one log' "$(python '
from dmlab_tools import kernel_fio
try:
    kernel_fio.orders(open("tests/kernel/two_logs_two_devices/bundle", encoding="ascii").read(), 1)
except kernel_orders.Unfit as why:
    print(why)')"

finish
