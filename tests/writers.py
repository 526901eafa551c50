#!/usr/bin/env python3
"""tests/writers.py: makes some small bundles, and looks at who wrote what, as `dmlab trace` tells
it, from outside.

In a bundle of small_bundles.py a sector of a request has one place on the disks, whichever disk it
is on, and each line that writes has bytes of its own. So the trace's `serve` and `map` events tell
what became of each sector, and the report's bytes tell who wrote them: both have to fit the trace's
column `writers` and its lost writes and trims. One line for each case that fails, and at the end
'N passed, M failed'. It wants the proved program. `--bundle N` writes the bundle N.
"""

from __future__ import annotations

import collections
import itertools
import random
import re
import sys
from typing import Counter, Iterable, Iterator, Mapping, NamedTuple

sys.dont_write_bytecode = True
from small_bundles import (
    SHIFTS,
    Column,
    Origin,
    bundle,
    dmlab,
    is_answer,
    level_of,
    main,
    rows_of,
    told_writers,
)

# What has to come up in some bundle, or the test looked at too little.
SIGHTS = (
    "lost write",
    "part of a write lost",
    "lost trim",
    "write of zero lines alone",
    "trim as writer",
    "nobody",
    "other log",
    "several runs",
    "failed read",
    "disk alone",
    "byte changed",
)


class Operation(NamedTuple):
    """An operation of a log: its log and line, what it asks for, and the row of the trace that
    answers it.
    """

    origin: Origin
    kind: str
    device: str
    first: int
    size: int
    answer: Column


def results(report: list[str]) -> dict[Origin, str]:
    """The results of a report by log and line."""
    found, log = {}, 0
    for line in report:
        words = line.split(" ", 2)
        log += words[0] == "log"
        if log and words[0].isdigit():
            found[log, int(words[0])] = words[2]
    return found


def operations(rows: list[Column]) -> Iterator[Operation]:
    """The operations of a trace. All rows of one have its log and line, and the last of them
    answers it.
    """
    last = {(row.log, row.line): row for row in rows if row.bio != "-"}
    for (log, line), row in last.items():
        first, size = map(int, row.sectors.split("+"))
        yield Operation((int(log), int(line)), row.kind, row.device, first, size, row)


# ---- what became of the sectors
def shifts(text: str, rows: list[Column]) -> dict[str, int]:
    """How far each device's sectors lie on the disks, by its word in the trace."""
    names = re.findall(r"^create (\S+)", text, re.M)
    found = {f"dm{number}": sum(SHIFTS[: level_of(name) + 1]) for number, name in enumerate(names)}
    return {**found, **{row.device: 0 for row in rows if row.device.startswith("ram")}}


def followed(rows: list[Column], shift: dict[str, int]) -> dict[Origin, dict[int, Origin | None]]:
    """Each operation's sectors that a disk served, each with who had written it there before, if
    anyone.
    """
    stands: dict[tuple[str, int], Origin] = {}
    found: dict[Origin, dict[int, Origin | None]] = collections.defaultdict(dict)
    further: dict[Origin, int] = {}
    for row in (row for row in rows if row.bio != "-"):
        origin = (int(row.log), int(row.line))
        further.setdefault(origin, shift[row.device])
        first, count = map(int, row.sectors.split("+"))
        for sector in range(first, first + count) if row.event.startswith("serve") else ():
            found[origin][sector - further[origin]] = stands.get((row.device, sector))
            if row.kind != "read":
                stands[row.device, sector] = origin
    return found


def zero_sectors(text: str) -> dict[str, set[int]]:
    """The sectors of each device, by its word in the trace, that a zero line has."""
    names = re.findall(r"^create (\S+)", text, re.M)
    found: dict[str, set[int]] = {f"dm{number}": set() for number in range(len(names))}
    for number, name in enumerate(names):
        _, _, table = text.partition(f"== table {name}\n")
        for line in table.partition("==")[0].splitlines():
            start, length, target, *_ = line.split()
            if target == "zero":
                found[f"dm{number}"].update(range(int(start), int(start) + int(length)))
    return found


def dropped(
    rows: list[Column], shift: dict[str, int], zeroes: dict[str, set[int]]
) -> dict[Origin, set[int]]:
    """Each operation's sectors of which a device was the last that was asked, and no disk, but for
    those of zero lines.
    """
    found: dict[Origin, set[int]] = collections.defaultdict(set)
    further: dict[Origin, int] = {}
    for row in (row for row in rows if row.bio != "-"):
        origin = (int(row.log), int(row.line))
        further.setdefault(origin, shift[row.device])
        first, count = map(int, row.sectors.split("+"))
        for sector in range(first, first + count):
            own = sector + shift[row.device] - further[origin]
            if row.event.startswith("map") and sector not in zeroes[row.device]:
                found[origin].add(own)
            elif row.event.startswith(("map", "serve")):
                found[origin].discard(own)
    return found


def runs_text(writers: Iterable[Origin | None]) -> str:
    """Who wrote each sector, as the column has it."""
    runs = [(writer, len(list(group))) for writer, group in itertools.groupby(writers)]
    return ",".join(
        f"{count}x{writer[0]}.{writer[1]}" if writer else f"{count}x-" for writer, count in runs
    )


def bytes_of(result: str) -> list[bytes]:
    """The bytes of a read's result, by sectors."""
    text = b"".join(
        bytes([int(run.split("x")[1], 16)]) * int(run.split("x")[0]) for run in result.split()
    )
    return [text[at : at + 512] for at in range(0, len(text), 512)]


def fill(writer: Origin | None, kinds: Mapping[Origin, str]) -> int:
    """The byte that a sector has from its writer."""
    return (16 * writer[0] + writer[1]) % 256 if writer and kinds[writer] == "write" else 0


def fits(sector: bytes, byte: int, corrupts: bool) -> bool:
    """Whether a sector has these bytes: all, or most where a line changes single ones."""
    return sector.count(byte) >= 500 if corrupts else sector == bytes([byte]) * 512


# ---- the cases: each answers what is wrong, and notes what it saw
def read_wrong(
    it: Operation,
    result: str,
    served: dict[int, Origin | None],
    kinds: Mapping[Origin, str],
    corrupts: bool,
) -> str:
    """What is wrong with a read that was answered ok."""
    found = [served.get(sector) for sector in range(it.first, it.first + it.size)]
    if it.answer.writers != runs_text(found):
        return f"the disks tell {runs_text(found)}, and the trace {it.answer.writers}"
    told = told_writers(it.answer.writers)
    sectors = bytes_of(result)
    if not len(told) == len(sectors) == it.size:
        return (
            f"{len(told)} sectors have writers, {len(sectors)} bytes, and the read has {it.size}"
        )
    bad = [
        at
        for at, writer in enumerate(told)
        if not fits(sectors[at], fill(writer, kinds), corrupts)
    ]
    return f"sector {bad[0]} of it has other bytes than {told[bad[0]]} wrote" if bad else ""


def write_wrong(it: Operation, lost: set[int]) -> str:
    """What is wrong with a write or a trim that was answered without a failure."""
    wanted = "ok lost" if lost else "served" if it.answer.event.startswith("serve") else "ok"
    return "" if it.answer.happened == wanted else f"it is {it.answer.happened}, and not {wanted}"


def answer_wrong(
    it: Operation,
    result: str,
    served: dict[int, Origin | None],
    lost: set[int],
    kinds: Mapping[Origin, str],
    corrupts: bool,
) -> str:
    """What is wrong with an operation's answer."""
    if (result == "EIO") != (it.answer.happened == "EIO"):
        return f"the report has {result}, and the trace {it.answer.happened}"
    if it.kind == "read" and result != "EIO":
        return read_wrong(it, result, served, kinds, corrupts)
    if it.answer.writers != "-":
        return "it has writers, and is no read that was answered ok"
    if it.kind in ("write", "trim") and result != "EIO":
        return write_wrong(it, lost)
    return "it is lost, and neither write nor trim" if "lost" in it.answer.happened else ""


def row_wrong(row: Column) -> str:
    """What is wrong with a row that answers no operation, and may tell nothing."""
    return (
        ""
        if is_answer(row) or row.writers == "-" and "lost" not in row.happened
        else f"{row.event} tells too much"
    )


def sights_of(
    it: Operation,
    result: str,
    served: dict[int, Origin | None],
    lost: set[int],
    kinds: Mapping[Origin, str],
    corrupts: bool,
) -> Iterator[str]:
    """What there was to see in an operation."""
    told = told_writers(it.answer.writers) if it.answer.writers != "-" else []
    is_lost, passed = it.answer.happened == "ok lost", it.answer.happened == "ok"
    yield from ["lost write"] * (is_lost and it.kind == "write")
    yield from ["part of a write lost"] * (is_lost and it.kind == "write" and bool(served))
    yield from ["lost trim"] * (is_lost and it.kind == "trim")
    yield from ["write of zero lines alone"] * (
        passed and it.kind == "write" and not lost and not served
    )
    yield from ["trim as writer"] * any(writer and kinds[writer] == "trim" for writer in told)
    yield from ["nobody"] * (None in told)
    yield from ["other log"] * any(writer and writer[0] != it.origin[0] for writer in told)
    yield from ["several runs"] * (len(set(told)) > 2)
    yield from ["failed read"] * (it.kind == "read" and result == "EIO")
    yield from ["disk alone"] * (it.device.startswith("ram") and it.kind == "read")
    changed = corrupts and told and any(len(set(sector)) > 1 for sector in bytes_of(result))
    yield from ["byte changed"] * bool(changed)


def case(number: int, seen: Counter[str]) -> Iterator[str]:
    """What is wrong with a bundle's answers, each in a line."""
    text = bundle(random.Random(number))
    report, trace = dmlab(text, "sim", "--seed", str(number)), dmlab(
        text, "trace", "--seed", str(number)
    )
    rows, said, corrupts = rows_of(trace), results(report), "corrupt" in text
    shift = shifts(text, rows)
    served, found = followed(rows, shift), list(operations(rows))
    lost = dropped(rows, shift, zero_sectors(text))
    kinds = {it.origin: it.kind for it in found}
    yield from filter(None, map(row_wrong, rows))
    for it in found:
        asked = (it, said[it.origin], served[it.origin], lost[it.origin], kinds, corrupts)
        seen.update(sights_of(*asked))
        yield from (
            f"line {it.origin[1]} of log {it.origin[0]}: {why}"
            for why in [answer_wrong(*asked)]
            if why
        )
    yield from [] if len(found) == len(said) else [
        f"{len(found)} operations in the trace, {len(said)} in the report"
    ]


if __name__ == "__main__":
    sys.exit(main(case, SIGHTS))
