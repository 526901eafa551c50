#!/usr/bin/env python3
"""tests/aftermath.py: tools/aftermath and tools/outages on the recording of examples/filesystem and
on small ones. The images that they put together have to be those of a replay of the recording that
shares nothing with them (recorded_files.py); no kernel and no mount is needed. If e2fsprogs and
sqlite3 are installed, the real check says what it has to. One line for each case that fails, and
at the end 'N passed, M failed'. It needs the proved program.
"""

from __future__ import annotations

import hashlib
import os
import resource
import shutil
import signal
import subprocess
import sys
import tempfile
import time
from typing import Callable, Optional

sys.dont_write_bytecode = True
ROOT = os.path.dirname(os.path.dirname(os.path.abspath(__file__)))
from recorded_files import (
    DISCARD,
    FLUSH,
    MARK,
    Entry,
    disk_after,
    entries_of,
    fill,
    recording,
    write,
)

COUNTS = {"passed": 0, "failed": 0}
HERE = f"{ROOT}/examples/filesystem"
# the disk that QEMU wrote while it recorded
DISK = "ef8c72f2ae5ccc5dfd57c2544fd709ca7a585ba3c794d2fdeccdc9a85288cbcd"
SECTORS = 32768
NAMES = "runs\tdisks\tstatus\tfirst\tkept\tsaid"
SMALL = [
    write(0, fill(1, 4)),
    Entry(flags=FLUSH),
    write(2, fill(2, 4)),
    Entry(flags=MARK, mark=b"half"),
    Entry(1, 2, DISCARD),
    write(7, fill(3)),
]


def same(name: str, wanted: object, came: object) -> None:
    """Counts a case, which passed if the two are the same."""
    COUNTS["passed" if wanted == came else "failed"] += 1
    if wanted != came:
        print(f"{name}: wanted {wanted!r}, came {came!r}")


def tool(name: str, *words: str, **more: object) -> "subprocess.CompletedProcess[str]":
    """Runs a tool."""
    call = [f"{ROOT}/tools/{name}", *words]
    return subprocess.run(call, capture_output=True, text=True, check=False, **more)  # type: ignore


def aftermath(*words: str, **more: object) -> "subprocess.CompletedProcess[str]":
    """Runs tools/aftermath on the bundle of the folder."""
    both = (f"{HERE}/db.bundle", "--recording", f"{HERE}/db.log.xz")
    return tool("aftermath", *both, *words, **more)


def read(path: str) -> bytes:
    """What a file has."""
    with open(path, "rb") as file:
        return file.read()


def put(path: str, data: bytes | bytearray) -> None:
    """Writes a file."""
    with open(path, "wb") as file:
        file.write(data)


def digest(data: bytes | bytearray) -> str:
    """The SHA-256 of some bytes."""
    return hashlib.sha256(data).hexdigest()


def rows_of(output: str) -> list[list[str]]:
    """The rows of a table, but for the names."""
    head, *lines = output.splitlines() or [""]
    same("names of the table", NAMES, head)
    return [line.split("\t") for line in lines]


def hit(
    entries: list[Entry], begin: int, length: int, fault: Callable[[Entry], Entry]
) -> list[Entry]:
    """The entries where a fault has those whose moment lies in an outage: entry N comes after N
    milliseconds.
    """
    return [
        fault(entry) if begin < 1000 * number < begin + length and entry.size else entry
        for number, entry in enumerate(entries, 1)
    ]


def dropped(entry: Entry) -> Entry:
    """What is left of an entry that is dropped."""
    return entry._replace(size=0, data=b"")


def changed(byte: int, value: int) -> Callable[[Entry], Entry]:
    """Changes a byte of a write that has it, counted from 1. A write here is never cut."""

    def fault(entry: Entry) -> Entry:
        """The entry with another byte."""
        data = bytearray(entry.data)
        if len(data) >= byte:
            data[byte - 1] = value
        return entry._replace(data=bytes(data))

    return fault


def committed(room: str) -> None:
    """The bundle is what tools/bundle makes of the recording, and the disk is QEMU's."""
    words = "--table disk=disk.table --device disk --log-writes db.log.xz".split()
    text = tool("bundle", *words, cwd=HERE).stdout
    same("bundle", read(f"{HERE}/db.bundle").decode(), text)
    entries = list(entries_of(f"{HERE}/db.log.xz"))
    same("replayed recording", DISK, digest(disk_after(entries, SECTORS)))
    ran = aftermath("--keep", f"{room}/kept", "--", "sha256sum", "{}")
    line = f"1\t1\t0\tdb\t{room}/kept/db.img\t{DISK} {{}}"
    same("without an outage", (0, f"{NAMES}\n{line}\n"), (ran.returncode, ran.stdout))
    same("told control", True, f"without a fault: status 0, {DISK} {{}}" in ran.stderr)
    same("kept image", DISK, digest(read(f"{room}/kept/db.img")))
    ran = aftermath("--recorded-disk", f"{room}/kept/db.img", "--", "true", "{}")
    same("recorded disk", 0, ran.returncode)


def outages_like_replays(room: str) -> None:
    """The images of outages are those of replays without, or with, the entries that these hit."""
    entries = list(entries_of(f"{HERE}/db.log.xz"))
    faults = {
        "drop_writes": dropped,
        "error_writes": dropped,
        "error": dropped,
        "corrupt_bio_byte 700 w 9 0": changed(700, 9),
        "delay 3": lambda entry: entry,
    }
    for fault, act in faults.items():
        words = ["--outage", f"disk={fault}", "--for", "1ms,60ms", "--at", "every-240"]
        ran = aftermath(
            *words, "--at", "1318.5ms", "--keep", f"{room}/each", "--", "sha256sum", "{}"
        )
        found = {row[5][:64]: row for row in rows_of(ran.stdout)}
        begins = [1000 * at - 500 for at, it in enumerate(entries, 1) if it.size][::240] + [
            1318500
        ]
        wanted: dict[str, int] = {}
        for length in (1000, 60000):
            for begin in begins:
                disk = digest(disk_after(hit(entries, begin, length, act), SECTORS))
                wanted[disk] = wanted.get(disk, 0) + 1
        came = {disk: int(row[0]) for disk, row in found.items()}
        same(f"images of {fault}", wanted, came)
    same("kept bundles", True, len(os.listdir(f"{room}/each")) > 12)


def bundles_alike(room: str) -> None:
    """Bundles that tools/outages writes give what tools/aftermath makes itself, by any number of
    jobs and by seeds.
    """
    words = ["--outage", "disk=drop_writes", "--for", "2ms", "--at", "every-200"]
    ran = tool("outages", f"{HERE}/db.bundle", *words, "--into", f"{room}/out")
    names = sorted(os.listdir(f"{room}/out"))
    same("bundles", (0, 6), (ran.returncode, len(names)))
    check = ["--prompt", "--", "sha256sum", "{}"]
    one, other = aftermath(*words, "--jobs", "1", *check), aftermath(*words, "--jobs", "4", *check)
    same("jobs", one.stdout, other.stdout)
    ran = tool("aftermath", f"{room}/out", "--recording", f"{HERE}/db.log.xz", *check)
    same("folder", sorted(rows_of(one.stdout)), sorted(rows_of(ran.stdout)))
    ran = tool("outages", f"{HERE}/db.bundle", *words, "--tight", "--into", f"{room}/tight")
    ran = tool("aftermath", f"{room}/tight", "--recording", f"{HERE}/db.log.xz", *check)
    same("tight", sorted(rows_of(one.stdout)), sorted(rows_of(ran.stdout)))
    waits = read(f"{room}/tight/disk-drop_writes@0.5ms+2ms.bundle").decode().count(" wait ")
    same("waits that are left", 2, waits)
    listed = read(f"{room}/out/outages.tsv").decode().splitlines()
    same("list", "disk-drop_writes@0.5ms+2ms\tdisk\tdrop_writes\t500\t2000", listed[1])
    path = f"{room}/out/{names[0]}"
    ran = tool("aftermath", path, "--recording", f"{HERE}/db.log.xz", "--seeds", "0..49", *check)
    same("seeds", 50, sum(int(row[0]) for row in rows_of(ran.stdout)))


def like_linux(room: str) -> None:
    """The disks after outages at another pace are those that a running Linux had, as
    tools/against_kernel --recording told on the day that the file names.
    """
    words = "--table disk=disk.table --device disk --log-writes db.log.xz --pace 200ms".split()
    put(f"{room}/base.bundle", tool("bundle", *words, cwd=HERE).stdout.encode())
    lines = read(f"{ROOT}/tests/recorded_linux.tsv").decode().splitlines()
    told = dict(line.split("\t") for line in lines if not line.startswith("#"))
    same("enough of them", True, len(told) >= 20)
    groups: dict[tuple[str, str], list[str]] = {}
    for name in told:
        outage, _, span = name.partition("@")
        begin, _, length = span.partition("+")
        groups.setdefault((outage.replace("-", "=", 1).replace("-", " "), length), []).append(
            begin
        )
    for (outage, length), begins in groups.items():
        words = ["--outage", outage, "--for", length, "--at", ",".join(begins)]
        tool("outages", f"{room}/base.bundle", *words, "--into", f"{room}/outages")
    both = [f"{room}/outages", "--recording", f"{HERE}/db.log.xz"]
    ran = tool("aftermath", *both, "--prompt", "--", "sha256sum", "{}")
    came = {row[5][:64]: int(row[0]) for row in rows_of(ran.stdout)}
    wanted = {disk: list(told.values()).count(disk) for disk in told.values()}
    same("disks as Linux had them", wanted, came)


def small(room: str, table: str = "0 8 linear /dev/ram0 0") -> list[str]:
    """A small recording and its bundle, as words."""
    put(f"{room}/r.log", recording(SMALL))
    put(f"{room}/table", f"{table}\n".encode())
    words = ["--table", f"d={room}/table", "--device", "d", "--log-writes", f"{room}/r.log"]
    put(f"{room}/b.bundle", tool("bundle", *words).stdout.encode())
    return [f"{room}/b.bundle", "--recording", f"{room}/r.log"]


def small_disks(room: str) -> None:
    """Small disks, by hand: of each sector the value, where entry 1 writes 1 and so on."""
    both = small(room)
    say = [
        "--",
        "sh",
        "-c",
        "for at in 0 1 2 3 4 5 6 7; do od -An -tu1 -j $((512 * at)) -N 1 $0; done | paste -s -d ' ' | tr -s ' '",
        "{}",
    ]
    said = lambda *words: [
        row[5] for row in rows_of(tool("aftermath", *both, *words, *say).stdout)
    ]
    same("trimmed", ["1 0 0 2 2 2 0 3"], said())
    outage = ["--outage", "d=drop_writes", "--for", "1ms", "--at"]
    # the entries 1, 3, 5 and 6 are the first four moments but for the sync at 2 ms
    same("dropped first", ["0 0 0 2 2 2 0 3"], said(*outage, "0.5ms"))
    same("dropped trim", ["1 1 2 2 2 2 0 3"], said(*outage, "mark=half"))
    same("dropped last", ["1 0 0 2 2 2 0 0"], said(*outage, "4.5ms"))
    same("dropped sync", ["1 0 0 2 2 2 0 3"], said(*outage, "1.5ms"))
    words = ["--compact", "--table", f"d={room}/table", "--device", "d"]
    text = tool("bundle", *words, "--log-writes", both[2]).stdout
    put(f"{room}/c.bundle", text.encode())
    both[0] = f"{room}/c.bundle"
    same("a compacted bundle has a sector less", True, "ram 0 7\n" in text)
    same("compacted", ["0 0 0 2 2 2 0 3"], said(*outage, "0.5ms"))
    split = "0 3 linear /dev/ram1 5\n3 5 linear /dev/ram0 1"
    both = small(room, split)
    same("on two disks", ["1 0 0 2 2 2 0 3"], said())
    same("dropped there", ["1 1 2 2 2 2 0 3"], said(*outage, "mark=half"))


def real_checks(room: str) -> None:
    """What e2fsck and SQLite say."""
    if not all(map(shutil.which, ("e2fsck", "debugfs", "sqlite3"))):
        print("skipped: no e2fsck, debugfs or sqlite3 here, so no real check was run")
        return
    words = ["--outage", "disk=drop_writes", "--for", "1ms,60ms", "--at", "1318.5ms,1356.5ms"]
    control = ["--control-has", "^0 e2fsck 0, sqlite: ok 100$"]
    ran = aftermath(*words, *control, "--", f"{HERE}/rows.sh")
    entries, wanted = list(entries_of(f"{HERE}/db.log.xz")), []
    for length, begin in ((1000, 1318500), (1000, 1356500), (60000, 1318500), (60000, 1356500)):
        put(f"{room}/disk", disk_after(hit(entries, begin, length, dropped), SECTORS))
        said = subprocess.run(
            [f"{HERE}/rows.sh", f"{room}/disk"], capture_output=True, check=False
        )
        wanted.append(said.stdout.decode().strip())
    same("rows that are left", wanted, [row[5] for row in rows_of(ran.stdout)])
    same("no row is lost without an outage", 0, ran.returncode)
    same("rows are lost by outages", True, any(it.endswith(" ok 99") for it in wanted))
    ran = aftermath(*control, "--has", "ok 99$", "--", f"{HERE}/rows.sh", "{}")
    same("nothing is lost without an outage", 4, ran.returncode)


def interrupted(room: str) -> None:
    """A call that is interrupted goes on: no check is run twice."""
    both = small(room)
    put(f"{room}/slow", b'#!/bin/sh\necho >> "$(dirname "$0")/calls"\nsleep 1\ncksum < $1\n')
    os.chmod(f"{room}/slow", 0o755)
    words = ["--outage", "d=drop_writes", "--for", "1ms", "--at", "every-write"]
    words += ["--jobs", "1", "--into", f"{room}/into", "--", f"{room}/slow", "{}"]
    begun = subprocess.Popen([f"{ROOT}/tools/aftermath", *both, *words], stderr=subprocess.PIPE)
    while (
        not os.path.exists(f"{room}/into/verdicts.tsv")
        or read(f"{room}/into/verdicts.tsv").count(b"\n") < 2
    ):
        time.sleep(0.1)
    begun.send_signal(signal.SIGINT)
    told = begun.communicate()[1].decode()
    same("interrupted", (130, True), (begun.returncode, "the same words" in told))
    before = len(read(f"{room}/calls"))
    ran = tool("aftermath", *both, *words)
    # of three writes dropped and none dropped, four disks differ; one check had begun and ended
    calls = len(read(f"{room}/calls"))
    same(
        "gone on",
        (0, 3, True),
        (ran.returncode, len(rows_of(ran.stdout)), before <= 2 and calls <= 5),
    )
    put(f"{room}/into/verdicts.tsv", read(f"{room}/into/verdicts.tsv")[:-20])
    same("cut verdicts", ran.stdout, tool("aftermath", *both, *words).stdout)
    same("a check less", calls + 1, len(read(f"{room}/calls")))
    other = tool("aftermath", *both, *words[:-2], "true", "{}")
    same("another check", True, "verdicts of another check" in other.stderr)


def refused(name: str, ran: "subprocess.CompletedProcess[str]", *wanted: str) -> None:
    """A call is refused by one last line that has these words, and no table is written."""
    line = ran.stderr.splitlines()[-1] if ran.stderr else ""
    missing = [word for word in wanted if word not in line]
    same(name, (1, "", []), (ran.returncode, ran.stdout, missing))


def no_room() -> None:
    """Files have at most 100,000 bytes."""
    resource.setrlimit(resource.RLIMIT_FSIZE, (100000, 100000))


def refusals(room: str) -> None:
    """What is refused."""
    both, check = small(room), ["--", "true", "{}"]
    run: Callable[..., "subprocess.CompletedProcess[str]"] = lambda *words: tool(
        "aftermath", *words
    )
    refused("no check", run(*both, "--", "./none", "{}"), "check ./none: no such program", "path")
    put(f"{room}/text", b"no program")
    refused("no program", run(*both, "--", f"{room}/text", "{}"), "make it executable")
    put(f"{room}/text", b"echo no first line\n")
    os.chmod(f"{room}/text", 0o755)
    refused("no first line", run(*both, "--", f"{room}/text", "{}"), "it can't be started")
    put(f"{room}/words.bundle", read(both[0]).replace(b"ram 0 8", b"ram x 8"))
    refused("no bundle", run(f"{room}/words.bundle", *both[1:], *check), "dmlab refuses this")
    os.mkdir(f"{room}/seen")
    into = ["--into", f"{room}/seen", *check]
    same("verdicts", 0, run(*both, *into).returncode)
    put(f"{room}/seen/verdicts.tsv", read(f"{room}/seen/verdicts.tsv") + b"x\n")
    refused("wrong verdicts", run(*both, *into), "verdicts.tsv, line 3: no verdict")
    refused("no room", aftermath(*check, preexec_fn=no_room), "File too large", "TMPDIR=FOLDER")
    kept = ["--keep", f"{room}/none", *check]
    refused("no room to keep", aftermath(*kept, preexec_fn=no_room), "File too large")
    same("nothing half written", False, os.path.exists(f"{room}/none/db.img"))
    part = run(both[0], "--recording", both[2], "--from", "half", *check)
    refused("another part", part, "log r, line 5", "has", "tools/bundle made the log")
    put(f"{room}/disk", b"\0" * 4096)
    disk = run(*both, "--recorded-disk", f"{room}/disk", *check)
    refused("another disk", disk, "sector 0 isn't what the entries", "from an empty disk on")
    zero = small(room, "0 4 linear /dev/ram0 0\n4 4 zero")
    refused("control", run(*zero, *check), "without a fault sector 4", "nothing can be concluded")
    linear = small(room)
    outage = ["--for", "1ms", "--at", "1ms", *check]
    refused(
        "no device", run(*linear, "--outage", "e=drop_writes", *outage), "no device e", "has d"
    )
    dust = small(room, "0 8 dust /dev/ram0 0 512")
    refused("dust", run(*dust, "--outage", "d=error", *outage), "put a linear device above it")
    mark = ["--outage", "d=error", "--for", "1ms", "--at", "mark=x"]
    refused("no mark", run(*small(room), *mark, *check), "r.log has no such mark")
    lone = tool("outages", linear[0], *mark, "--into", f"{room}/o")
    refused("marks of no recording", lone, "--recording FILE tells where")
    same("no folder", False, os.path.exists(f"{room}/o"))
    put(f"{room}/two.bundle", read(linear[0]) + b"== log more\nfio version 2 iolog\n")
    refused("two logs", run(f"{room}/two.bundle", *both[1:], *check), "it has 2 logs")
    put(f"{room}/bad.bundle", read(linear[0]).replace(b"ram 0 8", b"ram 0 7"))
    refused("a refused bundle", run(f"{room}/bad.bundle", *both[1:], *check), "refused script")


def wrong_words(room: str) -> None:
    """Words that don't go together."""
    both, check = small(room), ["--", "true", "{}"]
    for words in (
        [*both],
        [*both, "--"],
        [both[0], *check],
        [*both, "--outage", "d=drop_reads", "--for", "1ms", "--at", "1ms", *check],
        [*both, "--outage", "d=error", "--for", "1", "--at", "1ms", *check],
        [*both, "--outage", "d=error", "--for", "1ms", "--at", "every-0", *check],
        [*both, "--outage", "d=error", "--for", "1ms", *check],
        [*both, "--for", "1ms", *check],
        [*both, "--seeds", "3..1", *check],
    ):
        same(f"words {words[3:]}", 2, tool("aftermath", *words).returncode)


def main() -> int:
    """Tries everything, and answers the status."""
    for part in (
        committed,
        outages_like_replays,
        bundles_alike,
        like_linux,
        small_disks,
        real_checks,
        interrupted,
        refusals,
        wrong_words,
    ):
        with tempfile.TemporaryDirectory() as room:
            part(room)
    print(f"{COUNTS['passed']} passed, {COUNTS['failed']} failed")
    return 0 if not COUNTS["failed"] else 1


sys.exit(main())
