#!/bin/bash
# Makes recordings by the installed fio, and bundles of them by tools/bundle: each becomes a bundle
# that dmlab accepts, or is refused by a sentence that says what to do. Trims are recorded on a loop
# device, since fio takes none on a file; without root or losetup they are recorded by fio's engine
# null alone, and a line says so. One line for each case that fails, and at the end 'N passed, M
# failed'. Without fio all is skipped, by a line that says so. It wants the proved program.
cd "$(dirname "$0")/.." || exit 1
. tests/cases.sh
needs_program
if ! command -v fio > /dev/null; then
    echo 'skipped: no fio here, so nothing was recorded'
    finish
    exit
fi
echo 'vol: 0 8192 linear 8:16 0' > "$room/tables"

# recorded WORDS..: a recording by fio of a file of 4 MiB, as $room/log
recorded() {
    rm -f "$room/log" "$room/data"
    (cd "$room" && fio --name=job --filename=data --size=4m --write_iolog=log --thread "$@" > told 2>&1)
}

# bundled LOG..: the first word of what dmlab check says of the bundle, or the last line of the
# refusal. All files of the logs are on the device vol
bundled() {
    if (cd "$room" && "$OLDPWD/tools/bundle" --tables tables --device vol "$@" > bundle 2> refusal); then
        "$dmlab" check < "$room/bundle" | cut -d ' ' -f 1
    else
        tail -n 1 "$room/refusal"
    fi
}

# matches NAME WANTED CAME: a case, which passes if what came matches
matches() {
    same "fio_$1" yes "$([[ $3 =~ $2 ]] && echo yes || echo "$3")"
}

# actions LOG: the actions of a recording, each with its count
actions() {
    awk 'NR > 1 { print $3 }' "$room/$1" | LC_ALL=C sort | uniq -c | awk '{ print $2, $1 }' | paste -s -d ' '
}

while IFS='|' read -r name words wanted; do
    read -r -a words <<< "$words"
    recorded "${words[@]}"
    matches "$name" "$wanted" "$(bundled log)"
done < <(sed -E 's/ *\| */|/g' << 'END'
writes          | --rw=randwrite --bs=64k                           | ^accepted$
reads_and_writes | --rw=randrw --bs=4k --io_size=1m --fsync=8       | ^accepted$
waits           | --rw=write --bs=64k --thinktime=2000              | ^accepted$
mapped          | --rw=randrw --bs=4k --io_size=512k --ioengine=mmap | ^accepted$
by_libaio       | --rw=randwrite --bs=64k --ioengine=libaio --iodepth=16 --direct=1 | ^accepted$
trims_by_null   | --rw=randtrim --bs=64k --ioengine=null            | ^accepted$
datasyncs       | --rw=write --bs=64k --fdatasync=4 --ioengine=pvsync | ^accepted$
jobs_that_share_a_log | --rw=write --bs=4k --numjobs=2      | ^accepted$|own write_iolog
large_blocks    | --rw=write --bs=2m                                | 1 MiB|1,048,576|1048576
odd_offsets     | --rw=randwrite --bs=1000 --io_size=100k           | 512
range_syncs     | --rw=write --bs=64k --sync_file_range=write:4     | sync_file_range
END
)

# thinktime: fio stalls 2 ms behind each of 64 writes, so 63 of them have a wait of 2 ms or more before them
recorded --rw=write --bs=64k --thinktime=2000
bundled log > "$room/told"
same fio_thinktime 63 "$(awk '$2 == "write" && waited { count++ } { waited = $2 == "wait" && $3 >= 2000 }
    END { print count }' "$room/bundle")"

# jobs with a log of their own each: the bundle has both, the second one with its reads alone
printf '%s\n' '[global]' filename=data size=4m bs=64k thread '[first]' write_iolog=first.iolog rw=randwrite \
    '[second]' write_iolog=second.iolog rw=randread thinktime=500 > "$room/jobs"
rm -f "$room/data"
(cd "$room" && fio jobs > told 2>&1)
matches jobs_with_own_logs '^accepted$' "$(bundled first.iolog second.iolog)"
same fio_jobs_logs 'first write 64 second read 64' "$(awk '/^== log/ { name = $3 }
    $2 == "read" || $2 == "write" { count[name " " $2]++ }
    END { for (it in count) print it, count[it] }' "$room/bundle" | LC_ALL=C sort | paste -s -d ' ')"

# trims of a device that takes them
truncate -s 4M "$room/image"
if [ "$(id -u)" = 0 ] && loop=$(losetup -f --show "$room/image" 2> "$room/told"); then
    trap 'losetup -d "$loop"; rm -rf "$room"' EXIT
    for rw in randtrim trimwrite; do
        rm -f "$room/log"
        (cd "$room" && fio --name=job --filename="$loop" --size=4m --write_iolog=log --thread --rw=$rw --bs=64k > told 2>&1)
        matches "$rw" '^accepted$' "$(bundled log)"
        same "fio_${rw}_lines" "$(actions log | grep -o 'trim [0-9]*')" "trim $(grep -c ' trim ' "$room/bundle")"
        same "fio_${rw}_trims" yes "$([ "$(grep -c ' trim ' "$room/bundle")" -gt 31 ] && echo yes)"
    done
else
    echo 'skipped: no loop device here (root and losetup), so no trims of a device were recorded'
fi

# what docs/FORMATS.md and the converter's page say of a replay by fio 3.33: a wait is in
# milliseconds, a trim is dropped, and the first EIO ends it; the moments of version 3 are in microseconds
# replayed LINES: what fio says of a replay of a log with these lines, each begun by ;
replayed() {
    truncate -s 1M "$room/a.img"
    printf 'fio version 2 iolog\na.img add\na.img open\n%sa.img close\n' "$(in_lines "${1//;/;a.img}" | sed '/^$/d')
" > "$room/replay.iolog"
    (cd "$room" && fio --name=r --ioengine=psync --read_iolog=replay.iolog 2>&1)
}
if [ "$(fio --version)" = fio-3.33 ]; then
    same fio_waits_milliseconds yes "$(replayed '; write 0 4096; wait 1700 0; write 4096 4096' |
        sed -n 's/.*WRITE:.*run=\([0-9]*\)-.*/\1/p' | awk '{ print ($1 >= 1500 && $1 < 17000) ? "yes" : $1 " ms" }')"
    same fio_drops_trims 'bad ddir: 2 issued rwts: total=0,2,0,0' "$(replayed '; write 0 4096; trim 0 4096; write 8192 4096' |
        grep -oE 'bad ddir: 2|issued rwts: total=[0-9,]*' | sed 's/,$//' | paste -s -d ' ')"
    # the moments of version 3 are microseconds; trims are dropped there too
    printf '%s\n' 'fio version 3 iolog' '0 a.img add' '0 a.img open' '1000 a.img write 0 4096' '2000 a.img trim 0 4096' \
        '1700000 a.img write 4096 4096' '1800000 a.img close' > "$room/third.iolog"
    (cd "$room" && timeout 60 fio --name=r --ioengine=psync --read_iolog=third.iolog > told 2>&1)
    same fio_version_3_microseconds yes "$(sed -n 's/.*WRITE:.*run=\([0-9]*\)-.*/\1/p' "$room/told" |
        awk '{ print ($1 >= 1500 && $1 < 17000) ? "yes" : $1 " ms" }')"
    same fio_version_3_drops_trims 'bad ddir: 2' "$(grep -o 'bad ddir: 2' "$room/told")"
    # no memory is at 0, so the read between two writes fails by EIO
    printf '%s\n' 'fio version 2 iolog' 'a.img add' '/proc/self/mem add' 'a.img open' '/proc/self/mem open' \
        'a.img write 0 4096' '/proc/self/mem read 0 4096' 'a.img write 8192 4096' > "$room/eio.iolog"
    for words in '' --continue_on_error=all; do
        # shellcheck disable=SC2086
        (cd "$room" && fio --name=r --ioengine=psync --read_iolog=eio.iolog $words 2>&1) |
            grep -oE 'err= ?5|issued rwts: total=[0-9,]*[0-9]' | sort -u | paste -s -d ' '
    done > "$room/told"
    same fio_stops_at_eio $'err= 5 err=5 issued rwts: total=1,1,0,0\nerr= 5 issued rwts: total=1,2,0,0' "$(< "$room/told")"
else
    echo 'skipped: this fio is not 3.33, of whose replay the pages tell'
fi
finish
