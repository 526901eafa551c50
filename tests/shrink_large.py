#!/usr/bin/env python3
"""tests/shrink_large.py: shrinks three failing bundles of recorded size by tools/shrink: one whose
line loses a write, one that is stale under some seeds alone, and one whose dust line fails a read.
The smallest bundle of each was worked out by hand. Each keeps a history that dmlab audit runs to
the same report, and may take 80 seconds of processors: 20 on four. It wants the proved program.
One line for each case that fails, and at the end 'N passed, M failed'.
"""

from __future__ import annotations

import os
import random
import re
import resource
import subprocess
import sys
import tempfile
import time
from typing import Iterator

ROOT = os.path.dirname(os.path.dirname(os.path.abspath(__file__)))
PROGRAM = f"{ROOT}/crates/dmlab/out/dmlab"
HEADER = "fio version 2 iolog"
# So many seconds of all processors may one search take.
MOST_SECONDS = 80
COUNTS = {"passed": 0, "failed": 0}


def same(name: str, wanted: object, came: object) -> None:
    """Counts a case, which passed if the two are the same."""
    COUNTS["passed" if wanted == came else "failed"] += 1
    if wanted != came:
        print(f"{name}: wanted {wanted!r}, came {came!r}")


def log(name: str, device: str, lines: list[str]) -> str:
    """A log on a device."""
    its = [f"/dev/mapper/{device} {line}" for line in ["add", "open", *lines]]
    return "\n".join([f"== log {name}", HEADER, *its, ""])


def operations(draw: random.Random, count: int, first: int, size: int) -> Iterator[str]:
    """So many lines of a log within some sectors: writes, reads, syncs and waits."""
    for _ in range(count):
        kind = draw.choice(("write", "write", "read", "sync", "wait"))
        sectors = draw.choice((1, 2, 8, 8, 16))
        at = draw.randrange(first, first + size - sectors)
        if kind == "sync":
            yield "sync 0 0"
        elif kind == "wait":
            yield f"wait {draw.randrange(200, 4000)} 0"
        else:
            yield f"{kind} {512 * at} {512 * sectors}"


def lost() -> str:
    """A bundle of 900 lines: four logs on a volume of three lines above a device that gets its
    table by a load. From the fourth second on one line drops writes.
    """
    draw = random.Random(1)
    logs = []
    for number in range(4):
        lines = list(operations(draw, 212, 256 * number, 250))
        if number == 2:
            lines += ["wait 4200000 0", f"write {512 * 700} 8192", "sync 0 0"]
        logs.append(log(f"job{number}", "data", lines))
    return f"""# recorded on four processors
== table empty
0 2048 zero
== table disks
0 600 linear /dev/ram0 0
600 400 flakey /dev/ram0 600 4 3 1 drop_writes
1000 1048 delay /dev/ram1 0 2
== table volume
0 256 linear /dev/mapper/low 0
256 768 linear /dev/mapper/low 256
== script
ram 0 1024
ram 1 1048
create low empty
load low disks
suspend low
resume low
create data volume
replay
sleep 1000000
status low
wait
status data
{''.join(logs)}"""


def stale() -> str:
    """A bundle that is stale under some seeds: a reader and a writer meet at one moment, and the
    read is issued behind the answer or before it.
    """
    draw = random.Random(2)
    writer, reader = (list(operations(draw, 150, first, 200)) for first in (0, 300))
    reader = [line for line in reader if not line.startswith("wait")] + ["wait 9000000 0"]
    writer = [line for line in writer if not line.startswith("wait")] + ["wait 9000000 0"]
    writer += [f"write {512 * 520} 4096", "sync 0 0"]
    reader += [f"read {512 * 512} 8192", "sync 0 0"]
    return f"""== table t
0 500 linear /dev/ram0 0
500 100 flakey /dev/ram0 500 8 5 1 drop_writes
600 40 linear /dev/ram0 600
== table top
0 640 linear /dev/dm-0 0
== script
ram 0 640
create wal t
create all top
replay
wait
{log("writer", "all", writer)}{log("reader", "all", reader)}{log("other", "all", writer[:90])}"""


def dust() -> str:
    """A bundle whose dust line, of blocks of 4,096 bytes, has three bad ones. A read far behind
    them crosses one.
    """
    draw = random.Random(3)
    lines = [it for it in operations(draw, 300, 0, 900) if not it.startswith("read")]
    reads = [f"read {512 * (at * 16)} 4096" for at in range(10, 40)]
    return f"""== table rotten
0 512 linear /dev/ram0 512
512 1024 dust /dev/ram0 1024 4096
== table top
0 1536 linear /dev/mapper/disk 0
== script
ram 0 4096
create disk rotten
create vol top
message disk 600 addbadblock 61
message disk 600 addbadblock 70
message disk 1000 addbadblock 83
message disk 512 countbadblocks
message disk 512 enable
replay
wait
{log("a", "vol", lines)}{log("b", "vol", [*reads, f"read {512 * (512 + 8 * 70 + 3)} 16384"])}"""


# The name of the log that stays may be any. The history is left out here.
SMALLEST = {
    "lost": """== table disks
0 1 flakey /dev/ram0 0 0 1 1 drop_writes
== script
ram 0 1
create low disks
replay
== log x
fio version 2 iolog
/dev/mapper/low add
/dev/mapper/low open
/dev/mapper/low write 0 512
""",
    "stale": """== table t
0 1 flakey /dev/ram0 0 0 1 1 drop_writes
== script
ram 0 1
create wal t
replay
== log x
fio version 2 iolog
/dev/dm-0 add
/dev/dm-0 open
/dev/dm-0 write 0 512
/dev/dm-0 read 0 512
""",
    "dust": """== table rotten
0 1 dust /dev/ram0 0 512
== script
ram 0 1
create disk rotten
message disk 0 addbadblock 0
message disk 0 enable
replay
== log x
fio version 2 iolog
/dev/mapper/disk add
/dev/mapper/disk open
/dev/mapper/disk read 0 512
""",
}
WORDS = {
    "lost": ["--lost"],
    "stale": ["--stale", "--prompt", "--seeds", "0..19"],
    "dust": ["--eio", "--by-fault"],
}
BUNDLES = {"lost": lost, "stale": stale, "dust": dust}


def run(*words: str, bundle: str = "") -> tuple[int, str, str]:
    """The status of a command, its output and its errors."""
    done = subprocess.run(words, input=bundle, capture_output=True, text=True, check=False)
    return done.returncode, done.stdout, done.stderr


def shrunk(name: str, room: str) -> None:
    """Shrinks one of the bundles, and looks at what is left."""
    path = os.path.join(room, name)
    with open(path, "w", encoding="ascii") as file:
        file.write(BUNDLES[name]())
    before, began = resource.getrusage(resource.RUSAGE_CHILDREN), time.monotonic()
    status, output, told = run(
        *(f"{ROOT}/tools/shrink", path, "--program", PROGRAM, "--renumber", "--history"),
        *WORDS[name],
    )
    after, took = resource.getrusage(resource.RUSAGE_CHILDREN), time.monotonic() - began
    used = after.ru_utime + after.ru_stime - before.ru_utime - before.ru_stime
    bundle, heading, history = output.partition("== history\n")
    same(f"{name}: status", 0, status)
    same(f"{name}: the smallest bundle", SMALLEST[name], re.sub("== log .*", "== log x", bundle))
    same(f"{name}: at most {MOST_SECONDS} s of processors", True, used <= MOST_SECONDS)
    seed = told.partition("seed ")[2].partition(";")[0]
    options = ["--prompt"] * ("--prompt" in WORDS[name])
    report = run(PROGRAM, "sim", "--seed", seed, *options, bundle=bundle)[1]
    same(f"{name}: audited", (0, report), run(PROGRAM, "audit", bundle=output)[:2])
    finding = WORDS[name][0]
    found = run(PROGRAM, "sim", "--seed", seed, *options, finding, "--fail", bundle=bundle)
    same(f"{name}: fails", 4, found[0])
    lines = sum(map(bool, BUNDLES[name]().split("\n")))
    print(f"{name}: {lines} lines, {took:.1f} s, {used:.1f} s of processors: {told.strip()[:150]}")


def main() -> int:
    """Shrinks all three, and answers the status."""
    if not os.access(PROGRAM, os.X_OK):
        print("crates/dmlab/out/dmlab is not there: ./test or rt ci builds it")
        COUNTS["failed"] += 1
    else:
        with tempfile.TemporaryDirectory() as room:
            for name in BUNDLES:
                shrunk(name, room)
    print(f"{COUNTS['passed']} passed, {COUNTS['failed']} failed")
    return 0 if not COUNTS["failed"] else 1


sys.exit(main())
