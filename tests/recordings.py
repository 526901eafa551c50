#!/usr/bin/env python3
"""tests/recordings.py: recordings of dm-log-writes, as tools/bundle takes them: small ones that are
made here, with entries of each kind, and what is refused in them. One line for each case that
fails, and at the end 'N passed, M failed'.
"""

from __future__ import annotations

import gzip
import lzma
import os
import subprocess
import sys
import tempfile

sys.dont_write_bytecode = True
ROOT = os.path.dirname(os.path.dirname(os.path.abspath(__file__)))
from recorded_files import DISCARD, FLUSH, FUA, MAGIC, MARK, Entry, fill, recording, write

COUNTS = {"passed": 0, "failed": 0}
TABLE = "0 64 linear /dev/ram0 0\n"
KINDS = [
    write(8, fill(1, 3)),
    Entry(flags=FLUSH),
    Entry(flags=MARK, mark=b"made"),
    write(9, fill(2), FUA),
    Entry(10, 2, DISCARD),
    write(60, fill(3), FLUSH),
    Entry(flags=MARK, mark=b"end"),
]
# the lines of these entries behind the first three, by the page on formats
LINES = """
wait 1000 1; write 4096 1536; wait 1000 2; sync 0 0; wait 1000 4; write 4608 512;
wait 1000 5; trim 5120 1024; wait 1000 6; sync 0 0; write 30720 512
"""


def same(name: str, wanted: object, came: object) -> None:
    """Counts a case, which passed if the two are the same."""
    COUNTS["passed" if wanted == came else "failed"] += 1
    if wanted != came:
        print(f"{name}: wanted {wanted!r}, came {came!r}")


def bundle(data: bytes, words: str = "", table: str = TABLE) -> tuple[int, str, str]:
    """The status of tools/bundle on a recording, and what it writes."""
    with tempfile.TemporaryDirectory() as room:
        for name, text in (("disk.table", table.encode()), ("r.log", data)):
            with open(f"{room}/{name}", "wb") as file:
                file.write(text)
        call = [f"{ROOT}/tools/bundle", "--log-writes", "r.log"]
        call += (words or "--table disk=disk.table --device disk").split()
        ran = subprocess.run(call, cwd=room, capture_output=True, text=True, check=False)
    return ran.returncode, ran.stdout, ran.stderr


def log_of(data: bytes, words: str = "") -> list[str]:
    """The lines of the log behind the first three, without the device."""
    output = bundle(data, "--table disk=disk.table --device disk " + words)[1]
    lines = output.partition("\n== log r\n")[2].splitlines()
    same(
        f"first lines {words}",
        ["fio version 2 iolog", "/dev/mapper/disk add", "/dev/mapper/disk open"],
        lines[:3],
    )
    return [line.removeprefix("/dev/mapper/disk ") for line in lines[3:]]


def listed(text: str) -> list[str]:
    """Lines that are parted by semicolons."""
    return [line for line in text.replace("\n", " ").strip().split("; ") if line]


def logs() -> None:
    """Entries of each kind, in both sizes of sectors, packed or not, and parts of recordings."""
    lines = [line.strip() for line in listed(LINES.replace(";\n", "; "))]
    data = recording(KINDS)
    same("each kind", lines, log_of(data))
    same("packed by xz", lines, log_of(lzma.compress(data)))
    same("packed by gzip", lines, log_of(gzip.compress(data)))
    slow = [line.replace("1000", "250", 1) if line.startswith("wait") else line for line in lines]
    same("pace", slow, log_of(data, "--pace 250us"))
    same("to a mark", lines[:4], log_of(data, "--to made"))
    same("to an entry", lines[:2], log_of(data, "--to 1"))
    left = ["write 4096 1536"]
    same("from a mark", left + lines[4:], log_of(data, "--from made"))
    # of the three sectors the second was written over, and the third discarded
    left = ["write 4096 512", "write 4608 512"]
    same("from an entry", left + lines[8:], log_of(data, "--from 6 --to end"))
    large = [write(8, fill(1, 16)), write(0, fill(2, 8), FUA), Entry(8, 8, DISCARD)]
    wanted = "wait 1000 1; write 4096 8192; wait 1000 2; write 0 4096; wait 1000 3; trim 4096 4096"
    same("sectors of 4096 bytes", listed(wanted), log_of(recording(large, 4096)))


def long_entries() -> None:
    """Entries of more sectors than a line takes."""
    entries = [write(1, fill(7, 4097)), Entry(0, 2049, DISCARD)]
    parts = "wait 1000 1; write 512 1048576; write 1049088 1048576; write 2097664 512"
    parts += "; wait 1000 2; trim 0 1048576; trim 1048576 512"
    words = "--disk d=/dev/ram0:8192 --device d"
    lines = bundle(recording(entries), words)[1].splitlines()
    same(
        "parts of entries",
        listed(parts),
        [it.partition(" ")[2] for it in lines[-len(listed(parts)) :]],
    )


def refused(name: str, data: bytes, *wanted: str, words: str = "", table: str = TABLE) -> None:
    """A recording is refused by one line that has these words, and nothing is written."""
    status, output, told = bundle(data, words, table)
    missing = [word for word in wanted if word not in told]
    same(name, (1, "", 1, []), (status, output, told.count("\n"), missing))


def refusals() -> None:
    """What is refused in a recording."""
    data, cut = recording(KINDS), "copy the whole recording once its recorder has ended"
    refused("empty", b"", "r.log: cut off", cut)
    refused("cut in the first sector", data[:300], "has 300", cut)
    refused("cut in an entry", data[:1000], "r.log, entry 1: cut off", cut)
    refused("cut in data", data[:2000], "entry 1: cut off: its data ends at byte 2560", cut)
    refused("cut at the end", data[:-1], "entry 7: cut off", cut)
    refused("packed and cut", lzma.compress(data)[:-30], "can't be unpacked", cut)
    refused("magic", recording(KINDS, magic=7), "begins with 0x7", "not the disk's")
    refused("version", recording(KINDS, version=2), "a recording of version 2, and only 1")
    refused("sector size", recording([], 512).replace(b"\0\2\0\0", b"\1\2\0\0"), "513 bytes")
    refused("no entry", recording([]), "no entry: end the recorder first")
    refused("flags", recording([Entry(flags=32)]), "entry 1: its flags are 32")
    past = recording([write(0, fill(1)), write(63, fill(1, 2))])
    refused("past the table", past, "entry 2: it reaches to sector 65", "has 64", "size")
    far = recording([write(65535, fill(1, 2))])
    refused("past all disks", far, "entry 1", "at most 32 MiB", words="--device /dev/ram0")
    many = recording([write(it % 8, fill(1)) for it in range(5000)])
    refused("lines", many, "entries 1 to 5000 make 10002 lines", "at most 10000", "--to 4999")
    same("lines that fit", 0, bundle(many, "--table disk=disk.table --device disk --to 4999")[0])
    known = "--table disk=disk.table --device disk "
    refused("mark", data, "no such mark: its marks are made, end", words=known + "--from ended")
    refused("no mark", past, "it has no mark, and entries from 1 to 2", words=known + "--to x")
    refused("nothing between", data, "no entry stands", words=known + "--from end --to made")
    refused("no table", data, "no table tells of disk", words="--device disk")


def wrong_words() -> None:
    """Words that don't go together."""
    data = recording(KINDS)
    for words in (
        "--pace 1ms",
        "--device disk --first 3",
        "--device disk --split",
        "--device disk a.log",
        "--device disk --pace 99us",
        "--device disk --pace 0s",
    ):
        same(f"words {words}", 2, bundle(data, words)[0])
    call = [f"{ROOT}/tools/bundle", "--from", "a", "x.log"]
    same("--from of a log", 2, subprocess.run(call, capture_output=True, check=False).returncode)
    same("magic", 0x6A736677736872, MAGIC)


def main() -> int:
    """Tries everything, and answers the status."""
    for part in (logs, long_entries, refusals, wrong_words):
        part()
    print(f"{COUNTS['passed']} passed, {COUNTS['failed']} failed")
    return 0 if not COUNTS["failed"] else 1


sys.exit(main())
