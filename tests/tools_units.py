#!/usr/bin/env python3
"""tests/tools_units.py: looks at parts of tools/bundle, tools/iolog3to2 and tools/timeline from inside: sets of
sectors and what is kept of a stack, each against a slow way that takes sector by sector, and how
words, moments and lines of logs and traces are read. One line for each case that fails, and at the end
'N passed, M failed'.
"""

from __future__ import annotations

import argparse
import os
import random
import sys
import tempfile
from typing import Callable, Iterator

sys.dont_write_bytecode = True
ROOT = os.path.dirname(os.path.dirname(os.path.abspath(__file__)))
sys.path.insert(0, f"{ROOT}/tools")
from dmlab_tools.bundle_rows import numbered, read_row
from dmlab_tools.bundle_words import moment, renaming, span
from dmlab_tools.compact_spans import Spans
from dmlab_tools.compact_stack import ALONE, Kept, Line, TooMany
from dmlab_tools.fio_logs import NO_RANGE_SYNC, TORN, Fault, Place, is_number, read_logs
from dmlab_tools.fio_steps import Window, cut, last_writes, pieces, steps_of, text_of
from dmlab_tools.timeline_found import origin_of
from dmlab_tools.timeline_perfetto import moments
from dmlab_tools.timeline_why import seconds
from dmlab_tools.trace_rows import any_row, read_row as trace_row, read_trace

COUNTS = {"passed": 0, "failed": 0}
HERE = Place("here", 1)


def same(name: str, wanted: object, came: object) -> None:
    """Counts a case, which passed if the two are the same."""
    COUNTS["passed" if wanted == came else "failed"] += 1
    if wanted != came:
        print(f"{name}: wanted {wanted!r}, came {came!r}")


def why(action: Callable[[], object]) -> str:
    """What an action is refused for, or nothing."""
    try:
        action()
    except (Fault, ValueError, TooMany, argparse.ArgumentTypeError) as error:
        return str(error)
    return ""


def expanded(spans: list[tuple[int, int]]) -> list[int]:
    """The sectors of some spans."""
    return [sector for first, end in spans for sector in range(first, end)]


def spans_like_sets(seed: int) -> None:
    """Spans have the sectors of a set that is made of the same ones, and count them so."""
    draw, spans = random.Random(seed), Spans()
    wanted: set[int] = set()
    for _ in range(draw.randint(1, 25)):
        first = draw.randint(0, 60)
        its = set(range(first, first + draw.choice((0, 1, 2, 9))))
        new = spans.add(first, first + len(its))
        same(f"new sectors {seed}", sorted(its - wanted), expanded(new))
        wanted |= its
        low, high = sorted((draw.randint(0, 70), draw.randint(0, 70)))
        inner = [sector for sector in sorted(wanted) if low <= sector < high]
        same(f"sectors within {seed}", inner, expanded(spans.within(low, high)))
        same(f"rank {seed}", len([it for it in wanted if it < low]), spans.rank(low))
    firsts, ends = spans.firsts, spans.ends
    same(f"gaps {seed}", True, all(end < first for end, first in zip(ends, firsts[1:])))
    same(f"size {seed}", len(wanted), spans.size())


def stack(draw: random.Random) -> dict[str, list[Line]]:
    """Some devices, each on two disks and on those before it."""
    below, found = {"a": 40, "b": 30}, {}
    for name in ("m", "n", "o", "p")[: draw.randint(1, 4)]:
        start, lines = 0, []
        for _ in range(draw.randint(1, 3)):
            length = draw.randint(1, 12)
            fitting = [it for it in below if below[it] >= length]
            on = [draw.choice(fitting) for _ in range(draw.choice((0, 1, 1, 2)))]
            offsets = [(it, draw.randint(0, below[it] - length)) for it in on]
            lines.append(Line(start, length, draw.choice((0, 0, 1, 4)), offsets))
            start += length
        below[name], found[name] = start, lines
    return found


def partners(lines: dict[str, list[Line]]) -> Iterator[tuple[tuple[str, int], tuple[str, int]]]:
    """Each two sectors that are partners, one way round."""
    for device, its in lines.items():
        for line in its:
            for at in range(line.length):
                for lower, offset in line.below:
                    yield (device, line.start + at), (lower, offset + at)
                if line.block:
                    yield (device, line.start + at), (device, line.start + at - at % line.block)


def slowly(lines: dict[str, list[Line]], kept: set[tuple[str, int]]) -> None:
    """Adds the partners, theirs, and so on."""
    pairs, size = list(partners(lines)), -1
    while len(kept) != size:
        size = len(kept)
        for one, other in pairs:
            if one in kept or other in kept:
                kept |= {one, other}


def kept_like_sets(seed: int) -> None:
    """What is kept is found in the slow way too, whatever was touched before a device was put."""
    draw, kept = random.Random(seed), Kept(1000)
    wanted: set[tuple[str, int]] = set()
    lines = stack(draw)
    for device, its in lines.items():
        kept.put(device, its)
        if draw.random() < 0.7:
            size = its[-1].start + its[-1].length
            first = draw.randrange(size)
            end = min(size, first + draw.randint(1, 3))
            kept.add(device, first, end)
            wanted |= {(device, sector) for sector in range(first, end)}
    slowly(lines, wanted)
    for device in ("a", "b", *lines):
        found = sorted(sector for name, sector in wanted if name == device)
        same(f"kept {seed} {device}", found, expanded(list(kept.of(device))))
    kept.fill()
    for device, its in lines.items():
        for line in its:
            first, end = (kept.place(device, it) for it in (line.start, line.start + line.length))
            same(f"line {seed} {device} is there", True, first < end)
            for lower, offset in line.below:
                last = kept.place(lower, offset + line.length)
                same(f"line {seed} {device} fits", end - first, last - kept.place(lower, offset))


def kept_is_bounded() -> None:
    """Too many sectors of disks, and lines that never end, are refused."""
    kept = Kept(100)
    kept.put("m", [Line(0, 200, 0, [("a", 0)])])
    same("enough", "", why(lambda: kept.add("m", 0, 100)))
    same("one more", "100 sectors of all disks", why(lambda: kept.add("m", 100, 101)))
    zero = Kept(100)
    zero.put("z", [Line(0, 1 << 40, 0, [])])
    same("no disk", "", why(lambda: zero.add("z", 0, 1 << 40)))
    dust = Kept(100)
    dust.put("d", [Line(0, 800, 8, [("a", 0)])])
    dust.put("e", [Line(0, 790, 8, [("d", 3)])])
    same(
        "dust overlaps", f"100 sectors of all disks, {ALONE}", why(lambda: dust.add("d", 400, 401))
    )


def words() -> None:
    """Words of a call and of tables."""
    for word, wanted in {
        "2s": 2000000,
        "1.5s": 1500000,
        "200ms": 200000,
        "0.25ms": 250,
        "90us": 90,
    }.items():
        same(f"moment {word}", wanted, moment(word))
    for word in ("2", "s", "-1s", "1.s", "1m", "1e3s", "", " 1s", "1.1234567s"):
        same(f"no moment {word}", True, why(lambda: moment(word)) != "" or word == "")
    same("span", (2000000, 5000000), span("2s..5s"))
    same("span from", (2000000, None), span("2s.."))
    same("span to", (0, 300), span("..300us"))
    for word in ("..", "2s", "2s..2s", "3s..2s", "2..3", "2s...3s", "x..3s"):
        same(
            f"no span {word}",
            f"{word} is no A..B with units, such as 1.5s..2s",
            why(lambda: span(word)),
        )
    same("renaming", ("a=b", "c"), renaming("/dev/mapper/a=b=c"))
    for word in ("a", "a=", "=b", "a=b/c", f"a={'b' * 33}"):
        same(f"no renaming {word}", True, why(lambda: renaming(word)) != "")
    for word, number in {
        "/dev/sda": "8:0",
        "/dev/sdb3": "8:19",
        "/dev/loop7": "7:7",
        "/dev/nvme0n1": "/dev/nvme0n1",
    }.items():
        same(f"number of {word}", number, numbered(word))
    for word, is_one in {
        "0": True,
        "18446744073709551615": True,
        "18446744073709551616": False,
        "²": False,
        "1_0": False,
    }.items():
        same(f"number {word}", is_one, is_number(word))
    row = read_row(HERE, "m", "0 8 delay 8:16 0 1 8:32 9 2".split(), 0)
    same("references", [0, 3], list(row.references()))
    same("a block", 8, read_row(HERE, "m", "0 8 dust 8:16 0 4096".split(), 0).block())


def steps(text: str, window: Window = Window(), device: str = "") -> str:
    """The lines that a text of logs becomes, a ; for each line end, without headers. Files are
    their own devices unless one is given.
    """
    with tempfile.NamedTemporaryFile("w", suffix=".iolog") as file:
        file.write(text.replace("; ", "\n"))
        file.flush()
        try:
            found = [
                text_of(steps_of(log, lambda _, it: device or it, 1, window)).split("\n")[1:-1]
                for log in read_logs(file.name)
            ]
        except Fault as fault:
            return f"{fault.place.line}: {fault.why}"
    return " | ".join("; ".join(lines) for lines in found)


HEAD = "fio version 3 iolog; 5 f add; 9 f open; 10 f write 0 512"
V3 = f"{HEAD}; 1000 f write 512 512; 2000 f read 0 512; 3000 f close"
V2 = (
    "fio version 2 iolog; f add; f open; f write 0 512; f wait 1000 0; f read 0 512; "
    "f wait 500 0; f close"
)


def parts_of_logs() -> None:
    """The first lines of a log, and those between two moments."""
    for most, wanted in {
        1: "f add",
        2: "f add; f open; f close",
        3: "f add; f open; f write 0 512; f close",
        6: "f add; f open; f write 0 512; f wait 1000 0; f write 512 512; f wait 1000 0; "
        "f read 0 512; f wait 1000 0; f close",
    }.items():
        same(f"first {most}", wanted, steps(V3, Window(most=most)))
    whole = steps(V3)
    same("all of it", whole, steps(V3, Window(most=7)))
    begun = "f add; f open; "
    same(
        "from 10",
        f"{begun}f write 0 512; f wait 1000 0; f write 512 512; f close",
        steps(V3, Window(10, 2000)),
    )
    same(
        "from 1000", f"{begun}f wait 1000 0; f write 512 512; f close", steps(V3, Window(11, 1001))
    )
    same(
        "from 1001",
        f"{begun}f wait 1000 0; f wait 1000 0; f read 0 512; f wait 1000 0; f close",
        steps(V3, Window(1001)),
    )
    same(
        "two from 500",
        f"{begun}f wait 1000 0; f write 512 512; f wait 1000 0; f read 0 512; f close",
        steps(V3, Window(500, None, 2)),
    )
    same("none", "", steps(V3, Window(1001, 1999)))
    same(
        "version 2",
        f"{begun}f wait 1000 0; f read 0 512; f wait 500 0; f close",
        steps(V2, Window(1000, 1500)),
    )
    same(
        "each log",
        "f add; f open; f close | f add; f open; f close",
        steps(f"{V3}; {V2}", Window(most=2)),
    )


def torn_logs() -> None:
    """What jobs that share a file leave there."""
    same(
        "torn",
        f"5: not TIMESTAMP FILE ACTION [OFFSET LENGTH]: {TORN}",
        steps(f"{HEAD}; 1fio version 3 iolog; {V3}"),
    )
    same(
        "torn before its header",
        f"5: write of g, which isn't open: {TORN}",
        steps(f"{HEAD}; 11 g write 0 512; {V3}"),
    )
    same(
        "wrong, but one log", "5: write of g, which isn't open", steps(f"{HEAD}; 11 g write 0 512")
    )
    same(
        "back in the second log",
        f"12: the moment goes back: {TORN}",
        steps(f"{V3}; {HEAD}; 3 f read 0 512"),
    )
    same(
        "back before a header",
        f"5: the moment goes back: {TORN}",
        steps(f"{HEAD}; 3 f read 0 512; {V3}"),
    )
    same(
        "back in one log",
        "f add; f open; f write 0 512; f read 0 512",
        steps(f"{HEAD}; 3 f read 0 512"),
    )
    ranged = "fio version 3 iolog; 5 f add; 9 f open; 10 f sync_file_range 0 0"
    same("sync_file_range", f"4: {NO_RANGE_SYNC}", steps(ranged))
    same(
        "a line without an end",
        "2: the line has 65536 bytes or more",
        steps("fio version 2 iolog; " + "x" * 70000),
    )


def long_logs() -> None:
    """Logs of more lines than dmlab takes."""
    text = "fio version 3 iolog; 0 f add; 0 f open; " + "; ".join(
        f"0 f write {512 * it} 512" for it in range(25000)
    )
    with tempfile.NamedTemporaryFile("w") as file:
        file.write(text.replace("; ", "\n"))
        file.flush()
        log = next(read_logs(file.name))
        lines = steps_of(log, lambda _, it: it)
        head = next(cut(lines, False, False))
        same(
            "no more is read than one line more", (10001, 10002), (len(head), head[-1].place.line)
        )
        found = list(pieces(iter(head * 3), False))
        same("pieces", [10000, 10000, 10000], [len(it) for it in found[:3]])
    again = [it._replace(numbers=(0, 512)) for it in head if it.action == "write"]
    same("writes that show", 1, len(last_writes(again)))


def traces() -> None:
    """Common lines of a trace are read as any line is, and wrong ones are refused alike."""
    for name in ("lost", "pieces", "swapped"):
        rows = read_trace(f"{ROOT}/tests/timeline/{name}.trace")
        same(f"rows of {name}", [any_row(HERE, row.text) for row in rows], rows)
        for row in rows:
            words = row.text.split("\t")
            for at in range(len(words)):
                for word in ("", "-", "0", "ok", "read", "ram0", "8+8"):
                    text = "\t".join([*words[:at], word, *words[at + 1 :]])
                    refusals = [why(lambda: read(HERE, text)) for read in (any_row, trace_row)]
                    same(f"{name} {row.place} {at} {word}", refusals[0], refusals[1])
    rows = read_trace(f"{ROOT}/tests/timeline/lost.trace")
    same("moments", [0.0, 0.001, 0.002], moments(rows)[:3])
    same("moments of the read", [11000000.0, 11000000.001], moments(rows)[22:24])
    same("origin", (1, 7), origin_of("1.7+0"))
    same("no origin", None, origin_of("-"))
    same("seconds", "5.06 s", seconds(5060000))


def main() -> int:
    """Tries everything, and answers the status."""
    for seed in range(60):
        spans_like_sets(seed)
        kept_like_sets(seed)
    for part in (kept_is_bounded, words, parts_of_logs, torn_logs, long_logs, traces):
        part()
    print(f"{COUNTS['passed']} passed, {COUNTS['failed']} failed")
    return 0 if not COUNTS["failed"] else 1


sys.exit(main())
