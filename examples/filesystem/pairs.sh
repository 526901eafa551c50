#!/bin/sh
# pairs.sh IMAGE: what btrfs check says of a btrfs image, and how many pairs the LMDB database db
# has in the files that can be restored.
room=$(mktemp -d) || exit 1
trap 'rm -rf "$room"' EXIT
btrfs check --readonly "$1" > "$room/said" 2>&1
check=$?
mkdir "$room/files"
btrfs restore "$1" "$room/files" > "$room/said" 2>&1
pairs=$(mdb_stat "$room/files/db" 2>&1 | sed -n 's/^ *Entries: //p')
echo "btrfs check $check, LMDB: ${pairs:-none}"
