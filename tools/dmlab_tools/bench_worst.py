"""bench_worst: looks for a bundle within dmlab's limits that runs long, for tools/bench --worst.

A recipe says what a bundle has: devices on one another, each of so many lines, and logs of one
operation again and again. A bundle of a recipe takes a share of the limits: of the budget, of the
visited pieces, of the logs' lines and of the bundle's bytes, whichever is used up first. Lengths
are powers of two, so that the pieces can be counted.
"""

from __future__ import annotations

import sys
from typing import Iterator, NamedTuple

from dmlab_tools.bench_loads import (
    MOST_BUDGET,
    MOST_BYTES,
    MOST_LINES,
    MOST_LOGS,
    OPENING,
    opened,
    spread,
    text_of,
)
from dmlab_tools.bench_runs import Fault, limited

# The sectors of each device and of its disk.
SIZE = 2048
# The values of each part of a recipe: how many devices; the lines of each; the operation and its
# sectors; the logs; dust's block in bytes and the delay in milliseconds on the lowest devices, 0
# for none; whether a wait stands before each operation; how often the lowest device is suspended
# and resumed while the logs run.
VALUES = {
    "devices": (1, 2, 3, 4, 6, 8, 16, 31),
    "lines": (1, 2, 4, 8, 16, 32, 64),
    "action": ("read", "write", "mixed", "trim", "sync"),
    "sectors": (1, 8, 64, 256, 1024, 2048),
    "logs": (1, 4, 16, 64),
    "block": (0, 512, 4096, 65536),
    "delay": (0, 1, 1000),
    "waits": (0, 1),
    "suspends": (0, 20, 400),
}


class Recipe(NamedTuple):
    """A recipe, by its parts as above."""

    devices: int
    lines: int
    action: str
    sectors: int
    logs: int
    block: int
    delay: int
    waits: int
    suspends: int


# Where the search begins: a recipe of each family.
BEGINNINGS = {
    "reads": Recipe(1, 1, "read", 2048, 64, 0, 0, 0, 0),
    "deep reads": Recipe(16, 1, "mixed", 2048, 64, 0, 0, 0, 0),
    "one fan": Recipe(3, 64, "sync", 1, 1, 0, 0, 0, 0),
    "fans of many logs": Recipe(3, 32, "sync", 1, 64, 0, 0, 0, 0),
    "held bios": Recipe(3, 32, "sync", 1, 16, 0, 1000, 0, 0),
    "suspends of a busy device": Recipe(2, 64, "sync", 1, 64, 0, 1, 0, 400),
    "dust's blocks": Recipe(2, 1, "mixed", 2048, 64, 512, 0, 0, 0),
    "a wait before each": Recipe(2, 1, "write", 8, 64, 0, 1, 1, 0),
}
# The share at which a recipe is measured first, and how it grows.
LEAST_SHARE, GROWTH = 1 / 65536, 4
# What docs/PERFORMANCE.md shows of such bundles: reads of a mebibyte by 64 logs through 8 devices.
SHOWN, SHOWN_SHARE = Recipe(8, 1, "read", 2048, 64, 0, 0, 0, 0), 1 / 4096


class Slow(NamedTuple):
    """A measured run: its recipe and share, its events and processor seconds, and the seconds that
    the whole would take. A run has one thread, so that these are its seconds on a machine that
    does nothing else, and others disturb them less.
    """

    recipe: Recipe
    share: float
    events: int
    seconds: float
    whole: float


def targets(recipe: Recipe) -> list[str]:
    """The target of each device, from the lowest."""
    found = (["delay"] if recipe.delay else []) + (["dust"] if recipe.block else [])
    return (found + ["linear"] * recipe.devices)[: recipe.devices]


def cell(recipe: Recipe, target: str) -> int:
    """The sectors of a device's pieces at most."""
    line = SIZE // recipe.lines
    return min(line, recipe.block // 512) if target == "dust" else line


def costs(recipe: Recipe) -> tuple[int, int]:
    """The events of one operation below its line, and its visited pieces."""
    lengths = [recipe.sectors]
    for target in reversed(targets(recipe)):
        lengths.append(min(lengths[-1], cell(recipe, target)))
    cost, visited = 1, 0
    for target, whole, part in zip(targets(recipe), lengths[-2::-1], lengths[:0:-1]):
        pieces = recipe.lines if recipe.action == "sync" else -(-whole // part)
        cost, visited = 2 + pieces * (cost + (target == "delay")), pieces * (1 + visited)
    return cost, visited


def count_of(recipe: Recipe, share: float) -> int:
    """How many operations a bundle of this share of the limits has."""
    cost, visited = costs(recipe)
    each, path = 1 + recipe.waits, f"/dev/dm-{recipe.devices - 1}"
    beside = recipe.devices + 1 + 5 * recipe.suspends + OPENING * recipe.logs
    return int(
        min(
            (share * MOST_BUDGET - beside) // (cost + each),
            share * MOST_BUDGET // visited,
            min(share * MOST_LOGS, recipe.logs) * (MOST_LINES - OPENING) // each,
            share * (MOST_BYTES - 100000) // (each * len(f"{path} write 1048576 1048576\n")),
        )
    )


def tables_of(recipe: Recipe) -> dict[str, list[str]]:
    """The tables, from the lowest device."""
    tables, length = {}, SIZE // recipe.lines
    for level, target in enumerate(targets(recipe)):
        below = f"/dev/dm-{level - 1}" if level else "/dev/ram0"
        word = {"delay": f" {recipe.delay}", "dust": f" {recipe.block}", "linear": ""}[target]
        starts = range(0, SIZE, length)
        tables[f"d{level}"] = [
            f"{start} {length} {target} {below} {start}{word}" for start in starts
        ]
    return tables


def line_of(recipe: Recipe, path: str, number: int) -> str:
    """An operation of a log, by its number."""
    action = ("write", "read")[number % 2] if recipe.action == "mixed" else recipe.action
    return f"{path} {action} 0 {0 if action == 'sync' else 512 * recipe.sectors}"


def text(recipe: Recipe, share: float) -> str | None:
    """The bundle of a recipe that takes this share of the limits, or None where it would have no
    operation.
    """
    count, path = count_of(recipe, share), f"/dev/dm-{recipe.devices - 1}"
    if count < 1:
        return None
    script = [
        f"ram 0 {SIZE}",
        *(f"create d{level} d{level}" for level in range(recipe.devices)),
        "replay",
    ]
    script += ["suspend d0", "resume d0"] * recipe.suspends
    wait = [f"{path} wait 1000 0"] * recipe.waits
    logs = [
        opened(
            path,
            [line for number in range(part) for line in (*wait, line_of(recipe, path, number))],
        )
        for part in spread(count, recipe.logs)
        if part
    ]
    return text_of(tables_of(recipe), script, logs)


def whole(before: Slow | None, share: float, seconds: float) -> float:
    """The seconds at the whole limits, if they grow as from the run before; that leaves out what
    each run takes once.
    """
    if before is None:
        return seconds / share
    return seconds + max(0, seconds - before.seconds) / (share - before.share) * (1 - share)


def measure(program: str, recipe: Recipe, seconds: float, path: str) -> Slow | None:
    """The longest run of a recipe within the time of one run: its share grows until a run takes an
    eighth of it.
    """
    share, found = LEAST_SHARE, None
    while share <= 1:
        if bundle := text(recipe, share):
            with open(path, "w") as file:
                file.write(bundle)
            told = limited(program, ("sim", "--seed", "1"), path, seconds)
            if told is None:
                return found
            found = Slow(recipe, share, *told, whole(found, share, told[1]))
            if found.seconds > seconds / 8:
                return found
        share *= GROWTH
    return found


def score(slow: Slow | None) -> float:
    """What recipes are compared by; nothing where no run ended within the time."""
    return slow.whole if slow else 0


def neighbours(recipe: Recipe) -> Iterator[Recipe]:
    """The recipes that differ in one value, the one before or behind it in its list."""
    for name, values in VALUES.items():
        at = values.index(getattr(recipe, name))
        for other in values[max(0, at - 1) : at] + values[at + 1 : at + 2]:
            yield Recipe(**dict(recipe._asdict(), **{name: other}))


def words_of(recipe: Recipe) -> str:
    """A recipe in words."""
    return " ".join(f"{name}={value}" for name, value in zip(VALUES, recipe))


def search(program: str, seconds: float, tries: int, path: str) -> Slow:
    """The slowest run that is found by so many recipes: those of the families, then neighbours of
    the slowest.
    """
    best: Slow | None = None
    tried: set[Recipe] = set()
    waiting = list(BEGINNINGS.values())
    while waiting and len(tried) < tries:
        recipe = waiting.pop(0)
        if recipe in tried:
            continue
        tried.add(recipe)
        slow = measure(program, recipe, seconds, path)
        told = "no run ended within the time"
        if slow:
            told = f"{slow.seconds:.2f} s at {slow.share:.6f} of the limits, {slow.whole:.0f} s at the whole by estimate"
        print(f"{words_of(recipe)}: {told}", file=sys.stderr, flush=True)
        if score(slow) > score(best):
            best = slow
        if (
            len(tried) >= len(BEGINNINGS)
            and best
            and (slow is best or len(tried) == len(BEGINNINGS))
        ):
            waiting = list(neighbours(best.recipe))
    if best is None:
        raise Fault(f"no run ended within {seconds} seconds")
    return best
