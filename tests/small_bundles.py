"""small_bundles: makes small bundles by chance, and reads what the program tells of them, for
tests/writers.py and tests/read_bytes.py; tests/findings.py reads by it, and has bundles of its own.

In each bundle the devices of a level lie a fixed number of sectors further on the level below, so
a sector of a request has one place on the disks, whichever disk it is on. Each line that writes
has bytes of its own.
"""

from __future__ import annotations

import argparse
import collections
import os
import random
import subprocess
import sys
from typing import Callable, Counter, Iterable, Iterator, NamedTuple, Tuple

ROOT = os.path.dirname(os.path.dirname(os.path.abspath(__file__)))
DMLAB = f"{ROOT}/crates/dmlab/out/dmlab"
BUNDLES = 200
# The sectors of a device of each level, the disks' first, and its first sector's place on the
# level below.
SIZES, SHIFTS = (24, 20, 16), (0, 2, 3)
# The last line of a log that has bytes of its own: log K has those of 16 * K + 2 to 16 * K + 17.
LAST_LINE = 17
# The words of a table's line behind its device and offset; None is a line of no device.
TARGETS: dict[str, tuple[str, ...] | None] = {
    "linear": ("",),
    "zero": None,
    "delay": ("100", "0 /dev/ram0 0 300"),
    "dust": ("512", "1024"),
    "flakey": (
        "0 1 1 drop_writes",
        "1 1 1 drop_writes",
        "1 1 2 drop_writes error_reads",
        "1 1 1 error_writes",
        "0 1 5 corrupt_bio_byte 7 r 255 0",
        "0 1 5 corrupt_bio_byte 512 w 254 0",
    ),
}
# The log and the line of an operation, and what is wrong with the bundle of a number, by a case
# that notes what it saw.
Origin = Tuple[int, int]
Case = Callable[[int, "collections.Counter[str]"], Iterator[str]]
OPERATIONS = ("write", "write", "write", "read", "read", "trim", "sync", "wait")


class Column(NamedTuple):
    """A row of a trace."""

    place: str
    clock: str
    event: str
    log: str
    line: str
    bio: str
    parent: str
    kind: str
    device: str
    sectors: str
    happened: str
    writers: str


def lengths(draw: random.Random, size: int) -> list[int]:
    """The lengths of one to three lines that have so many sectors together."""
    cuts = sorted(draw.sample(range(1, size), draw.randint(0, 2)))
    return [end - start for start, end in zip([0, *cuts], [*cuts, size])]


def table_line(draw: random.Random, start: int, length: int, level: int, below: list[str]) -> str:
    """A line of a table: on a device of the level below, its shift further on."""
    target = draw.choice(list(TARGETS))
    ways = TARGETS[target]
    if ways is None:
        return f"{start} {length} {target}"
    place = f"{draw.choice(below)} {start + SHIFTS[level]}"
    words = draw.choice(ways).replace("/dev/ram0 0", place)
    return f"{start} {length} {target} {place} {words}".rstrip()


def table(draw: random.Random, level: int, below: list[str]) -> list[str]:
    """The lines of a table."""
    parts = lengths(draw, SIZES[level])
    return [table_line(draw, sum(parts[:at]), part, level, below) for at, part in enumerate(parts)]


def messages(name: str, lines: Iterable[str]) -> Iterator[str]:
    """What the script tells a table's dust lines: that their first block is bad, and that reads of
    it fail.
    """
    for line in lines:
        start, _, target, *_ = line.split()
        if target == "dust":
            yield from (f"message {name} {start} addbadblock 0", f"message {name} {start} enable")


def devices(draw: random.Random) -> dict[str, list[str]]:
    """The devices with their tables: one or two on the disks, and one or two on those."""
    disks = ["/dev/ram0", "/dev/ram1"]
    low = {f"low{at}": table(draw, 1, disks) for at in range(draw.randint(1, 2))}
    below = [f"/dev/mapper/{name}" for name in low]
    return {**low, **{f"top{at}": table(draw, 2, below) for at in range(draw.randint(1, 2))}}


def level_of(file: str) -> int:
    """The level of a log's file."""
    return 0 if "ram" in file else 1 if "low" in file else 2


def operation(draw: random.Random, file: str) -> str:
    """A line of a log: what is done to some sectors of a file, or a wait."""
    word = draw.choice(OPERATIONS)
    size = SIZES[level_of(file)]
    first = draw.randrange(size)
    count = draw.randint(1, min(size - first, 8))
    numbers = {"sync": "0 0", "wait": f"{draw.choice((200000, 500000, 1000000))} 0"}
    return f"{file} {word} {numbers.get(word, f'{first * 512} {count * 512}')}"


def log_lines(draw: random.Random, names: Iterable[str]) -> list[str]:
    """The lines of a log on one or two files, up to the last line that has bytes of its own."""
    files = draw.sample(
        [*(f"/dev/mapper/{name}" for name in names), "/dev/ram0"], draw.randint(1, 2)
    )
    opened = [f"{file} {word}" for file in files for word in ("add", "open")]
    count = draw.randint(4, LAST_LINE - 1 - len(opened))
    return [
        "fio version 2 iolog",
        *opened,
        *(operation(draw, draw.choice(files)) for _ in range(count)),
    ]


def bundle(draw: random.Random) -> str:
    """The text of a bundle."""
    tables = devices(draw)
    parts = [line for name, lines in tables.items() for line in (f"== table {name}", *lines)]
    parts += [
        "== script",
        f"ram 0 {SIZES[0]}",
        f"ram 1 {SIZES[0]}",
        *(f"create {name} {name}" for name in tables),
    ]
    parts += [told for name, lines in tables.items() for told in messages(name, lines)] + [
        "replay"
    ]
    for number in range(draw.randint(1, 3)):
        parts += [f"== log {number + 1}", *log_lines(draw, tables)]
    return "\n".join(parts) + "\n"


# ---- what the program tells of it
def dmlab(text: str, *words: str) -> list[str]:
    """What the program writes, by lines."""
    told = subprocess.run([DMLAB, *words], input=text, capture_output=True, text=True, check=False)
    if told.returncode:
        raise ValueError(
            f"{' '.join(words)}: status {told.returncode}: {told.stdout[:80]}{told.stderr[:200]}"
        )
    return told.stdout.splitlines()


def rows_of(trace: list[str]) -> list[Column]:
    """The rows of a trace."""
    return [Column(*line.split("\t")) for line in trace[1:]]


def is_answer(row: Column) -> bool:
    """Whether a row answers an operation of a log."""
    return row.event.split()[0] in ("serve", "finish") and row.parent == "-"


def told_writers(column: str) -> list[Origin | None]:
    """Who wrote each sector, as the column tells."""
    found: list[Origin | None] = []
    for run in column.split(","):
        count, _, writer = run.partition("x")
        log, _, line = writer.partition(".")
        found += [None if writer == "-" else (int(log), int(line))] * int(count)
    return found


# ---- the cases: each answers what is wrong with a bundle, each in a line, and counts what it saw
def wrong_of(case: Case, number: int, seen: Counter[str]) -> str:
    """The first thing that is wrong with a bundle, or nothing."""
    try:
        return next(case(number, seen), "")
    except (ValueError, KeyError, IndexError, TypeError) as error:
        return f"{type(error).__name__}: {error}"


def tried(case: Case, sights: Iterable[str]) -> int:
    """Tries each bundle by a case, to which all these sights have to come up, and answers the
    status.
    """
    seen: Counter[str] = collections.Counter()
    whys = {f"bundle {number}": wrong_of(case, number, seen) for number in range(BUNDLES)}
    whys.update({f"seen: {sight}": "" if seen[sight] else "it never came up" for sight in sights})
    for name, why in whys.items():
        print(f"{name}: {why}\n" * bool(why), end="")
    failed = sum(map(bool, whys.values()))
    print(f"{len(whys) - failed} passed, {failed} failed")
    return int(failed > 0)


def main(case: Case, sights: Iterable[str]) -> int:
    """Writes the bundle that the words name, or tries each bundle, and answers the status."""
    words = argparse.ArgumentParser()
    words.add_argument("--bundle", type=int, metavar="N", help="write the bundle of this number")
    number = words.parse_args().bundle
    if number is not None:
        print(bundle(random.Random(number)), end="")
        return 0
    if not os.access(DMLAB, os.X_OK):
        print("crates/dmlab/out/dmlab is not there: ./test or rt ci builds it\n0 passed, 1 failed")
        return 1
    return tried(case, sights)
