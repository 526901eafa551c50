#!/usr/bin/env python3
"""tests/tools_compact.py: makes machines' tables and logs by chance, and looks at what
`tools/bundle --compact` makes of them, from outside.

Each is made into a bundle with --compact and without. The two have to give the same runs by the
same seeds: the reports are the same but for the sectors in states, and so are the traces, where
each sector stands where the comments of the compacted bundle put it. Dust lines get bad blocks, by
the numbers that these comments give. One line for each case that fails, and at the end 'N passed,
M failed'. It needs the proved program. `--case N` writes the two bundles of case N.
"""

from __future__ import annotations

import argparse
import collections
import os
import random
import re
import sys
import tempfile
from typing import Counter, Iterator, NamedTuple

sys.dont_write_bytecode = True
from small_bundles import DMLAB, ROOT, dmlab, rows_of

sys.path.insert(0, f"{ROOT}/tools")
from dmlab_tools.bundle_text import make
from dmlab_tools.bundle_words import arguments

CASES, SEEDS = 120, 2
DISKS = {"8:16": 3000, "8:32": 900, "/dev/nvme0n1": 1700}
SIGHTS = (
    "linear",
    "zero",
    "error",
    "flakey",
    "dust",
    "delay",
    "EIO",
    "bad block",
    "two references",
    "moved",
    "fewer",
)
# The words of a target behind its device and offset; D stands for another device and offset.
TARGETS: dict[str, tuple[str, ...]] = {
    "linear": ("",),
    "zero": ("",),
    "error": ("",),
    "dust": ("512", "1024", "4096", "65536"),
    "delay": ("100", "0 D 300", "0 D 20 D 7", "50"),
    "flakey": (
        "0 1 1 drop_writes",
        "1 1 2 drop_writes error_reads",
        "1 2 1 error_writes",
        "0 1 5 corrupt_bio_byte 700 r 255 0",
        "0 1 5 corrupt_bio_byte 1537 w 254 0",
    ),
}


class Device(NamedTuple):
    """A device of the machine: its name, its sectors and the lines of its table."""

    name: str
    size: int
    lines: list[str]


def place(draw: random.Random, below: list[tuple[str, int]], length: int) -> str:
    """A device that has so many sectors, and an offset on it."""
    word, size = draw.choice([it for it in below if it[1] >= length])
    return f"{word} {draw.randint(0, size - length)}"


def line(draw: random.Random, start: int, length: int, below: list[tuple[str, int]]) -> str:
    """A line of a table."""
    target = draw.choice([*TARGETS, "linear", "linear", "delay", "dust"])
    if target in ("zero", "error"):
        return f"{start} {length} {target}"
    words = draw.choice(TARGETS[target])
    while "D" in words:
        words = words.replace("D", place(draw, below, length), 1)
    return f"{start} {length} {target} {place(draw, below, length)} {words}".rstrip()


def devices(draw: random.Random) -> list[Device]:
    """The devices, each on disks and on those before it."""
    found: list[Device] = []
    below = list(DISKS.items())
    for number in range(draw.randint(1, 5)):
        start, lines = 0, []
        for _ in range(draw.randint(1, 4)):
            length = draw.choice((1, 7, 64, draw.randint(100, 800)))
            lines.append(line(draw, start, length, below))
            start += length
        found.append(Device(f"m{number}", start, lines))
        below.append((f"/dev/mapper/m{number}", start))
    return found


def log(draw: random.Random, files: list[tuple[str, int]]) -> str:
    """A log of version 3 on some files, each of so many sectors."""
    lines = [
        "fio version 3 iolog",
        *(f"0 {file} add" for file, _ in files),
        *(f"1 {file} open" for file, _ in files),
    ]
    moment = 1
    for _ in range(draw.randint(2, 12)):
        file, size = draw.choice(files)
        action = draw.choice(("write", "write", "write", "read", "read", "trim", "sync"))
        count = min(size, draw.choice((1, 2, 8, 8, 17, 140)))
        first = draw.choice(
            (draw.randint(0, size - count), 8 * (draw.randint(0, size - count) // 8))
        )
        moment += draw.choice((3, 200, 400000))
        numbers = "0 0" if action == "sync" else f"{512 * first} {512 * count}"
        lines.append(f"{moment} {file} {action} {numbers}")
    return "\n".join(lines) + "\n"


class Made(NamedTuple):
    """A bundle, and what its comments tell: which real disk a memory disk stands for, and where
    the sectors and the blocks of a device stand.
    """

    text: str
    disks: dict[str, str]
    moved: dict[str, list[tuple[int, int, int]]]
    blocks: list[tuple[str, int, int, int, int]]


def made(words: list[str]) -> Made:
    """The bundle of a call."""
    text = make(arguments("", words))
    found = Made(text, {}, collections.defaultdict(list), [])
    for name, word in re.findall(r"^# /dev/(ram\d+) stands for (\S+)$", text, re.M):
        found.disks[name] = word
    names = re.findall(r"^create (\S+)", text, re.M)
    numbers = {f"mapper/{name}": f"dm{at}" for at, name in enumerate(names)}
    for device, *its in re.findall(r"^# /dev/(\S+) (\d+)\+(\d+) is (\d+)\+", text, re.M):
        first, count, now = map(int, its)
        found.moved[numbers.get(device, device)].append((first, count, now))
    pattern = r"^# /dev/mapper/(\S+), line (\d+), dust blocks (\d+)\+(\d+) are (\d+)\+"
    for name, *its in re.findall(pattern, text, re.M):
        at, first, count, now = map(int, its)
        found.blocks.append((name, at, first, count, now))
    return found


def with_messages(text: str, messages: list[str]) -> str:
    """The bundle with some messages in front of its replay."""
    return text.replace("\nreplay\n", "".join(f"\n{it}" for it in messages) + "\nreplay\n")


def starts(text: str, name: str) -> list[int]:
    """Where the lines of a table begin."""
    part = text.split(f"== table {name}\n")[1].split("\n==")[0]
    return [int(it.split()[0]) for it in part.split("\n")]


def spoiled(draw: random.Random, plain: Made, small: Made, seen: Counter[str]) -> tuple[str, str]:
    """Both bundles with some bad blocks of dust, where dust lines have them."""
    here: list[str] = []
    there: list[str] = []
    for name, at, first, count, now in small.blocks:
        old, new = starts(plain.text, name)[at - 1], starts(small.text, name)[at - 1]
        back = draw.randrange(count)
        seen["bad block"] += 1
        for found, sector, block in ((here, old, first + back), (there, new, now + back)):
            found.append(f"message {name} {sector} addbadblock {block}")
            found.append(f"message {name} {sector} enable")
    return with_messages(plain.text, here), with_messages(small.text, there)


def told(report: list[str]) -> list[str]:
    """A report without the sectors and devices in states."""
    return [
        re.sub(r"^(script \d+) \d+ \d+ (\w+)( 1:\d+| 253:\d+)?", r"\1 \2", it) for it in report
    ]


def now_at(small: Made, device: str, first: int) -> int | None:
    """Where a sector stands in the compacted bundle."""
    for before, count, now in small.moved[device]:
        if before <= first < before + count:
            return now + first - before
    return None


def traced(text: str, seed: int, disks: dict[str, str], small: Made | None) -> Iterator[str]:
    """The rows of a trace. Sectors stand as in the compacted bundle, those of a flush nowhere, and
    disks by their words.
    """
    words = {word: name for name, word in small.disks.items()} if small else {}
    for row in rows_of(dmlab(text, "trace", "--seed", str(seed))):
        word = disks.get(row.device, row.device)
        if row.sectors.endswith("+0"):
            row = row._replace(sectors="+0")
        elif small and "+" in row.sectors:
            first, _, count = row.sectors.partition("+")
            now = now_at(small, words.get(word, word), int(first))
            row = row._replace(sectors=f"{now}+{count}")
        yield "\t".join(row._replace(device=word))


def case(number: int, room: str, seen: Counter[str]) -> tuple[str, str, Made, Made]:
    """The two bundles of a case, without and with --compact."""
    draw = random.Random(number)
    found = devices(draw)
    with open(f"{room}/tables", "w") as file:
        file.writelines(f"{it.name}: {text}\n" for it in found for text in it.lines)
    files = [(f"/dev/mapper/{it.name}", it.size) for it in found] + [("/dev/nvme0n1", 1700)]
    used: list[str] = []
    for at in range(draw.randint(1, 3)):
        its = draw.sample(files, draw.randint(1, min(3, len(files))))
        used += [name for name, _ in its if "mapper" in name and name not in used]
        with open(f"{room}/l{at}.iolog", "w") as file:
            file.write(log(draw, its))
    words = ["--tables", f"{room}/tables", "--disk", "/dev/nvme0n1=/dev/ram9"]
    words += [f"{room}/{it}" for it in sorted(os.listdir(room)) if it.endswith(".iolog")]
    words += [it for name in used or ["m0"] for it in ("--only", name)]
    words += draw.choice(("", "", "--verify", "--first 9", "--between 100us..")).split()
    plain, small = made(words), made([*words, "--compact"])
    for it in found:
        for text in it.lines:
            seen[text.split()[2]] += 1
            seen["two references"] += len(text.split()) > 6 and "delay" in text
    texts = spoiled(draw, plain, small, seen)
    return (*texts, plain, small)


def wrong(number: int, room: str, seen: Counter[str]) -> str:
    """What is wrong with a case, or nothing."""
    text, compact, plain, small = case(number, room, seen)
    for seed in range(SEEDS):
        want, came = (dmlab(it, "sim", "--seed", str(seed)) for it in (text, compact))
        if told(want) != told(came) or not want or "accepted" not in want[0]:
            return f"seed {seed}: " + next(
                (f"{a} | {b}" for a, b in zip(want, came) if a != b), "length"
            )
        seen["EIO"] += any(it.endswith("EIO") for it in want)
        rows = zip(
            traced(text, seed, plain.disks, small), traced(compact, seed, small.disks, None)
        )
        for one, other in rows:
            if one != other:
                return f"seed {seed}: {one} | {other}"
    sizes = [
        sum(int(it) for it in re.findall(r"^ram \d+ (\d+)", it, re.M)) for it in (text, compact)
    ]
    seen["fewer"] += sizes[1] < sizes[0]
    seen["moved"] += any(first != now for its in small.moved.values() for first, _, now in its)
    return ""


def main() -> int:
    """Tries each case, or writes the bundles of one, and answers the status."""
    parser = argparse.ArgumentParser()
    parser.add_argument("--case", type=int, metavar="N", help="write the two bundles of this case")
    number = parser.parse_args().case
    seen: Counter[str] = collections.Counter()
    if number is not None:
        with tempfile.TemporaryDirectory() as room:
            text, compact, _, _ = case(number, room, seen)
            print(text + "-" * 80 + "\n" + compact, end="")
        return 0
    if not os.access(DMLAB, os.X_OK):
        print("crates/dmlab/out/dmlab is not there: ./test or rt ci builds it\n0 passed, 1 failed")
        return 1
    failed = 0
    for number in range(CASES):
        with tempfile.TemporaryDirectory() as room:
            why = wrong(number, room, seen)
        if why:
            failed += 1
            print(f"case {number}: {why}")
    missing = [it for it in SIGHTS if not seen[it]]
    for sight in missing:
        print(f"no case had: {sight}")
    print(f"{CASES - failed} passed, {failed + len(missing)} failed")
    return 0 if not failed and not missing else 1


sys.exit(main())
