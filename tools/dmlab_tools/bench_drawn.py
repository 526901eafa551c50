"""bench_drawn: bundles drawn by chance of what is dear in a run, for tools/bench --search.

A draft has a seed for each part of a bundle. So the same draft gives the same bundle, and one with
another seed for one part differs in that part alone.
"""

from __future__ import annotations

import random
from typing import NamedTuple

from dmlab_tools.bench_loads import opened, text_of

# The most that a seed of a part is.
SEEDS = 1 << 32
# What a device's lines may be, with what comes behind the device that they lead to; {0} is a number.
PASSING = (
    ("linear", ""),
    ("linear", ""),
    ("dust", " 512"),
    ("dust", " 4096"),
    ("delay", " {0}"),
    ("delay", " 3600000"),
    ("flakey", " 0 3600 1 drop_writes"),
    ("flakey", " 0 3600 5 corrupt_bio_byte {0} w 20 0"),
    ("flakey", " 0 3600 5 corrupt_bio_byte {0} r 7 0"),
    ("flakey", " 0 3600 2 random_write_corrupt 1000000000"),
)
# The steps of a script while the logs run; {0} is a device, {1} the same or another.
STEPS = (
    ("status d{0}",),
    ("table d{0}",),
    ("suspend d{0}", "status d{0}", "resume d{0}"),
    ("load d{0} d{0}", "suspend d{0}", "resume d{0}"),
    ("suspend d{0}", "suspend d{1}", "resume d{1}", "resume d{0}"),
    ("sleep 1000",),
)


class Draft(NamedTuple):
    """The seeds of a bundle's devices, of its script and of its logs."""

    devices: int
    script: int
    logs: int


def drawn(draw: random.Random) -> Draft:
    """A draft by chance."""
    return Draft(*(draw.randrange(SEEDS) for _ in Draft._fields))


def changed(draft: Draft, draw: random.Random) -> Draft:
    """The draft with another seed for one part."""
    return draft._replace(**{draw.choice(Draft._fields): draw.randrange(SEEDS)})


def size_of(draft: Draft) -> int:
    """The sectors of each device and of the disk."""
    return random.Random(f"size {draft.devices}").choice((64, 2048, 2048, 65536))


def rows_of(draw: random.Random, size: int, below: str) -> list[str]:
    """The lines of a table: of one kind or of two in turn, to the same sectors or to all of one
    place.
    """
    count = draw.choice((1, 1, 1, 2, 8, 64))
    kinds = draw.choices(PASSING, k=draw.choice((1, 1, 2)))
    is_fan = draw.random() < 0.3
    length = size // count
    rows = []
    for line in range(count):
        kind, rest = kinds[line % len(kinds)]
        place = 0 if is_fan else length * line
        number = 1 + (64 - line if draw.random() < 0.5 else line)
        rows.append(f"{length * line} {length} {kind} {below} {place}{rest.format(number)}")
    return rows


def tables_of(draft: Draft) -> dict[str, list[str]]:
    """The tables, from that of the lowest device."""
    draw = random.Random(f"devices {draft.devices}")
    size, depth = size_of(draft), draw.choice((1, 1, 2, 2, 3, 4, 8, 30))
    below = ["1:0", *(f"253:{level}" for level in range(depth - 1))]
    return {f"d{level}": rows_of(draw, size, it) for level, it in enumerate(below)}


def begun(draw: random.Random, depth: int) -> list[str]:
    """The commands that create the devices; one of them may get many tables that are too short."""
    loads, chosen = draw.choice((0, 0, 0, 100, 900)), draw.randrange(depth)
    lines = []
    for level in range(depth):
        if loads and level == chosen:
            lines += [f"create d{level} short", *[f"load d{level} short"] * (loads - depth)]
            lines += [f"load d{level} d{level}", f"resume d{level}"]
        else:
            lines.append(f"create d{level} d{level}")
    return lines


def script_of(draft: Draft) -> list[str]:
    """The script."""
    draw, depth = random.Random(f"script {draft.script}"), len(tables_of(draft))
    lines = begun(draw, depth)
    blocks = [f"message d0 0 addbadblock {7 * it}" for it in range(draw.choice((0, 0, 50)))]
    lines += blocks if "dust" in tables_of(draft)["d0"][0] else []
    steps = draw.choices(STEPS, k=draw.choice((1, 2)))
    numbers = sorted((draw.randrange(depth), draw.randrange(depth)), reverse=True)
    rest = [it.format(*numbers) for step in steps for it in step]
    times = draw.choice((0, 1, 20, 300))
    return [f"ram 0 {size_of(draft)}", *lines, "replay", *(rest * times)[: 960 - len(lines)]]


def operations(draw: random.Random, size: int, path: str, count: int) -> list[str]:
    """So many operations of a log: large ones or small ones, at one place or in turn or drawn."""
    actions = draw.choice((("write",), ("read",), ("sync",), ("read", "write"), ("trim", "write")))
    length = draw.choice((1, 1, 8, min(size, 2048)))
    stride = draw.choice((0, length, 2 * length, 37))
    wait = [f"{path} wait {draw.choice((1000, 9999999))} 0"]
    waits = draw.choice((0, 0, 1, count))
    lines: list[str] = []
    for number in range(count):
        first = stride * number % (size - length + 1)
        lines += wait if number < waits else []
        lines.append(f"{path} {actions[number % len(actions)]} {512 * first} {512 * length}")
    return lines


def logs_of(draft: Draft, count: int) -> list[list[str]]:
    """Logs of so many operations, of two kinds at most."""
    draw, depth = random.Random(f"logs {draft.logs}"), len(tables_of(draft))
    logs = []
    for _kind in range(draw.choice((1, 2, 2))):
        path = draw.choice((f"/dev/dm-{depth - 1}", f"/dev/dm-{depth - 1}", "/dev/ram0"))
        lines = operations(draw, size_of(draft), path, count)
        logs += [opened(path, lines)] * draw.choice((1, 1, 4, 31))
    return logs


def text(draft: Draft, count: int) -> str:
    """The bundle of a draft, with logs of so many operations."""
    tables = tables_of(draft) | {"short": ["0 8 zero"]}
    return text_of(tables, script_of(draft), logs_of(draft, count))
