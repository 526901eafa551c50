#!/usr/bin/env python3
"""tests/growth.py: counts the instructions of runs at two sizes, by valgrind. What one event more
takes may not grow with the size of the run: a structure that is gone along at each event would show
here, though every proof holds. Without valgrind it is skipped.
One line for each case that fails, and at the end 'N passed, M failed'.
"""

from __future__ import annotations

import os
import re
import subprocess
import sys
from typing import Callable, NamedTuple

ROOT = os.path.dirname(os.path.dirname(os.path.abspath(__file__)))
PROGRAM = f"{ROOT}/crates/dmlab/out/dmlab"
sys.dont_write_bytecode = True
sys.path.insert(0, f"{ROOT}/tools")
from dmlab_tools.bench_counted import can_count, instructions
from dmlab_tools.bench_loads import opened, text_of

# By so much an event may take more in a run of four times the size, for what is logarithmic.
MOST_GROWTH = 1.3
# By so much a checked line may take more beside 900 versions that don't have its sectors.
MOST_BESIDE = 1.5
COUNTS = {"passed": 0, "failed": 0}


class Family(NamedTuple):
    """Runs of one kind: its name, the program's words, and the bundle of a size."""

    name: str
    words: tuple[str, ...]
    make: Callable[[int], str]


def many_held(size: int) -> str:
    """Flushes of up to 64 logs, each in 64 pieces, which one device holds at once."""
    lines = [f"{i} 1 delay 1:0 {i} {3600000 - i}" for i in range(64)]
    logs = [opened("/dev/mapper/d", ["/dev/mapper/d sync 0 0"])] * (size // 192)
    return text_of({"d": lines}, ["ram 0 64", "create d d", "replay"], logs)


def many_statuses(size: int) -> str:
    """Statuses of a device that holds the pieces of flushes of up to 64 logs, each in 64 pieces."""
    lines = [f"{i} 1 linear /dev/mapper/d {i}" for i in range(64)]
    tables = {"d": ["0 64 delay 1:0 0 3600000"], "u": lines}
    statuses = ["status d"] * (size // 15)
    script = ["ram 0 64", "create d d", "create u u", "replay", "sleep 1", *statuses]
    logs = [opened("/dev/mapper/u", ["/dev/mapper/u sync 0 0"])] * (size // 280)
    return text_of(tables, script, logs)


def one_after_another(size: int) -> str:
    """So many writes of a log, through two linear devices."""
    writes = [f"/dev/mapper/b write {512 * (i % 64)} 512" for i in range(size // 6)]
    tables = {"a": ["0 64 linear /dev/ram0 0"], "b": ["0 64 linear /dev/mapper/a 0"]}
    script = ["ram 0 64", "create a a", "create b b", "replay"]
    return text_of(tables, script, [opened("/dev/mapper/b", writes)])


def cut_in_pieces(size: int) -> str:
    """So many pieces, of writes over a device of 64 lines."""
    writes = ["/dev/mapper/d write 0 32768"] * (size // 131)
    lines = [f"{i} 1 linear 1:0 {i}" for i in range(64)]
    return text_of(
        {"d": lines}, ["ram 0 64", "create d d", "replay"], [opened("/dev/mapper/d", writes)]
    )


def same_value(size: int) -> str:
    """Reads of sectors of which a byte was set to what it is."""
    table = ["0 64 flakey 1:0 0 0 3600 5 corrupt_bio_byte 1 w 20 0"]
    reads = ["/dev/mapper/f write 0 32768", *["/dev/mapper/f read 0 32768"] * (size // 4)]
    return text_of(
        {"f": table}, ["ram 0 64", "create f f", "replay"], [opened("/dev/mapper/f", reads)]
    )


def beside_short_versions(fitting: int, count: int) -> Callable[[int], str]:
    """Writes on a device to which so many tables with their sectors were loaded, and before each of
    them so many without.
    """

    def of_size(size: int) -> str:
        tables = {"long": ["0 64 linear /dev/ram0 0"], "short": ["0 8 linear /dev/ram0 0"]}
        loads = [*["load d short"] * count, "load d long"] * fitting
        script = ["ram 0 64", "create d short", *loads, "resume d", "replay"]
        writes = ["/dev/mapper/d write 28672 4096"] * (size // 4)
        return text_of(tables, script, [opened("/dev/mapper/d", writes)])

    return of_size


FAMILIES = (
    Family("one_after_another", ("sim",), one_after_another),
    Family(
        "one_after_another_by_findings",
        ("sim", "--lost", "--corrupt", "--stale"),
        one_after_another,
    ),
    Family("one_after_another_traced", ("trace",), one_after_another),
    Family("cut_in_pieces", ("sim",), cut_in_pieces),
    Family("many_held", ("sim", "--prompt"), many_held),
    Family("many_statuses", ("sim", "--prompt"), many_statuses),
    Family("same_value", ("sim",), same_value),
)


def same(name: str, wanted: object, came: object) -> None:
    """Counts a case, which passed if the two are the same."""
    COUNTS["passed" if wanted == came else "failed"] += 1
    if wanted != came:
        print(f"{name}: wanted {wanted!r}, came {came!r}")


def measured(words: tuple[str, ...], text: str) -> tuple[int, int]:
    """The instructions of a run of the bundle, and its events."""
    report = subprocess.run([PROGRAM, "sim"], input=text, capture_output=True, text=True)
    steps = re.search(r"^done steps=(\d+)", report.stdout, re.M)
    if not steps:
        sys.exit(f"growth: {report.stderr}")
    return instructions(PROGRAM, words, text), int(steps[1])


def each(family: Family, size: int) -> float:
    """What one event more takes, in instructions, where a run gets twice as long."""
    once, more = (measured(family.words, family.make(it)) for it in (size, 2 * size))
    return (more[0] - once[0]) / (more[1] - once[1])


def main() -> None:
    """Each family at two sizes."""
    if not can_count():
        print("skipped: no valgrind here, so no instructions were counted")
    else:
        for family in FAMILIES:
            small, large = each(family, 1500), each(family, 6000)
            grown = large > MOST_GROWTH * small
            same(
                family.name,
                "no growth",
                f"{small:.0f}, then {large:.0f}" if grown else "no growth",
            )
        for fitting in (1, 15):
            few, many = (
                each(Family("", ("check",), beside_short_versions(fitting, it)), 3000)
                for it in (1, 900 // fitting)
            )
            close = "no growth" if many <= MOST_BESIDE * few else f"{few:.0f}, then {many:.0f}"
            same(f"beside_short_versions, {fitting} fitting", "no growth", close)
    print(f"{COUNTS['passed']} passed, {COUNTS['failed']} failed")


if __name__ == "__main__":
    main()
