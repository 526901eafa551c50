#!/bin/bash
# Prints a bundle that is too large to keep. With some numbers it stands at the greatest budget or
# at the most visited pieces, or one past them: tests/rows.sh has these numbers.
#
# large.sh reads ADDS              8,188 reads of 2,048 sectors from a disk, and then so many adds
# large.sh syncs DEVICES SYNCS ADDS
#                                  so many devices on one another, each of 64 linear lines of one
#                                  sector, and a log on the top one: so many syncs, then so many adds
# large.sh pieces SYNCS            so many syncs on three such devices, the lowest of `zero` lines

# times COUNT LINE: so many lines of this text
times() {
    yes "$2" | head -n "$1"
}

# table NAME WORDS: 64 lines of one sector; `@` in the words stands for the line's first sector
table() {
    echo "== table $1"
    for sector in {0..63}; do
        echo "$sector 1 ${2//@/$sector}"
    done
}

# log FILE: the first lines of a log that uses the file
log() {
    printf '== log a\nfio version 2 iolog\n%s add\n%s open\n' "$1" "$1"
}

reads() {
    printf '== script\nram 0 2048\nreplay\n'
    log /dev/ram0
    times 8188 '/dev/ram0 read 0 1048576'
    echo '/dev/ram0 close'
    times "$1" '/dev/ram0 add'
}

syncs() {
    local below=/dev/ram0 script='== script\nram 0 64\n'
    for ((device = 0; device < $1; device++)); do
        table "t$device" "linear $below @"
        script+="create d$device t$device\n"
        below=/dev/dm-$device
    done
    printf '%breplay\n' "$script"
    log "$below"
    times "$2" "$below sync 0 0"
    times "$3" "$below add"
}

pieces() {
    table z zero
    table y 'linear /dev/dm-0 @'
    table x 'linear /dev/dm-1 @'
    printf '== script\ncreate a z\ncreate b y\ncreate c x\nreplay\n'
    log /dev/mapper/c
    times "$1" '/dev/mapper/c sync 0 0'
}

"$@"
