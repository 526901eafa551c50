#!/bin/sh
# rows.sh IMAGE: repairs an ext4 image by e2fsck, and says how that ended, whether SQLite finds the
# database db.sqlite in order, and how many rows it has.
room=$(mktemp -d) || exit 1
trap 'rm -rf "$room"' EXIT
e2fsck -fy "$1" > "$room/said" 2>&1
repair=$?
for file in db.sqlite db.sqlite-journal; do
    debugfs -R "dump /$file $room/$file" "$1" 2> "$room/said"
done
rows=$(for query in 'pragma integrity_check' 'select count(*) from t'; do
    sqlite3 "$room/db.sqlite" "$query" 2>&1
done | paste -s -d ' ')
echo "e2fsck $repair, sqlite: $rows"
