"""finding_bundles: makes bundles by chance in which answers are wrong in many ways, for
tests/findings.py.

Disks, devices and requests are a few sectors, of some bundles a few hundred, and a line of a table
lies anywhere on the level below, so requests meet. All targets come up, dust with blocks that
heal, zero and error lines, each feature of flakey, stacks of up to three levels, two lines over
one place, tables that are swapped while logs run, and several logs.
"""

from __future__ import annotations

import random
from typing import Iterable, Iterator

# The sectors of a device of each level, the disks' first, and how many times as many one bundle in
# forty has.
SIZES = (16, 12, 10, 8)
LARGE = 64
DISKS = ("/dev/ram0", "/dev/ram1")
# How often a target comes up in a table, in a hundred lines.
TARGETS = {"linear": 30, "flakey": 44, "delay": 8, "dust": 8, "zero": 6, "error": 4}
DELAYS = ("100", "0 PLACE 300", "0 PLACE 700 PLACE 50")
# The seconds up and down; the second is always down.
INTERVALS = ("1 1", "0 1", "0 1", "1 2")
WAITS = (100, 20000, 200000, 500000, 1000000, 1500000)
OPERATIONS = "write write write write read read read trim sync datasync wait wait".split()


def features(draw: random.Random) -> list[str]:
    """The features of a flakey line, none twice and none that don't go together."""
    place, value = draw.choice((1, 7, 512, 513, 1030)), draw.choice((0, 20, 21, 22, 255))
    chance = draw.choice((300000000, 1000000000))
    writes: list[str] = draw.choice(
        [
            [],
            ["drop_writes"],
            ["drop_writes"],
            ["error_writes"],
            [f"corrupt_bio_byte {place} w {value} 0"],
            [f"random_write_corrupt {chance}"],
        ]
    )
    reads: list[str] = draw.choice(
        [
            [],
            [],
            ["error_reads"],
            [f"random_read_corrupt {chance}"],
            [f"corrupt_bio_byte {place} r {value} {draw.choice((0, 0, 0, 1))}"],
        ]
    )
    if sum(it.startswith("corrupt_bio_byte") for it in [*writes, *reads]) > 1:
        return writes
    return [*writes, *reads]


def words_behind(draw: random.Random, target: str, place: str) -> str:
    """The words of a line behind its device and offset."""
    if target == "delay":
        return draw.choice(DELAYS).replace("PLACE", place)
    if target == "dust":
        return draw.choice(("512", "1024"))
    if target == "flakey":
        told = " ".join(features(draw))
        return f"{draw.choice(INTERVALS)} {len(told.split())} {told}".rstrip(" ")
    return ""


def table_line(draw: random.Random, start: int, length: int, size: int, below: list[str]) -> str:
    """A line of a table: on a device of so many sectors below, mostly at the same sector."""
    target = draw.choices(list(TARGETS), list(TARGETS.values()))[0]
    if target in ("zero", "error"):
        return f"{start} {length} {target}"
    offset = start if draw.random() < 0.6 else draw.randint(0, size - length)
    place = f"{draw.choice(below)} {offset}"
    return f"{start} {length} {target} {place} {words_behind(draw, target, place)}".rstrip()


def table(draw: random.Random, sizes: list[int], below: list[str]) -> list[str]:
    """The lines of a table, one to three, and a comment now and then. The last of the sizes is the
    device's, and the one before that of the devices below it.
    """
    size = sizes[-1]
    cuts = [0, *sorted(draw.sample(range(1, size), draw.choice((0, 0, 1, 1, 2)))), size]
    lines = [
        table_line(draw, start, end - start, sizes[-2], below)
        for start, end in zip(cuts, cuts[1:])
    ]
    return ["# a comment"] * (draw.random() < 0.2) + lines


def levels(draw: random.Random) -> list[list[str]]:
    """The names of the devices, by levels from the lowest on."""
    counts = [draw.randint(1, 2), draw.choice((0, 1, 1, 2)), draw.choice((0, 0, 1))]
    counts = counts if counts[1] else counts[:1]
    return [[f"m{level + 1}{at}" for at in range(count)] for level, count in enumerate(counts)]


def messages(draw: random.Random, name: str, lines: Iterable[str]) -> Iterator[str]:
    """What the script tells a table's dust lines: that a block is bad and its reads fail."""
    for line in lines:
        start, _, target, *_ = line.split()[:3] if line[0] != "#" else ("", "", "comment")
        if target == "dust":
            yield f"message {name} {start} addbadblock 0"
            yield from [f"message {name} {start} enable"] * (draw.random() < 0.8)


def created(name: str, empty: bool) -> list[str]:
    """What the script does to create a device: at once, or at first without a table."""
    if not empty:
        return [f"create {name} {name}"]
    return [f"create {name} --notable", f"reload {name} {name}", f"resume {name}"]


def bad_again(names: list[str], tables: dict[str, list[str]]) -> Iterator[str]:
    """What the script does while logs run: it lists the first blocks of dust lines once more."""
    for name in names:
        lines = (line.split() for line in tables[name] if " dust " in line)
        yield from (f"message {name} {line[0]} addbadblock 0" for line in lines)


def swaps(draw: random.Random, names: list[str]) -> Iterator[str]:
    """What the script does while logs run: it swaps tables, or suspends a device for a while."""
    for _ in range(draw.choice((0, 0, 1, 2))):
        name = draw.choice(names)
        yield f"sleep {draw.choice(WAITS)}"
        yield from [f"load {name} {name}-next"] * (draw.random() < 0.8)
        yield from [f"suspend {name}", f"sleep {draw.choice(WAITS)}"] * (draw.random() < 0.5)
        yield f"resume {name}"


def operation(draw: random.Random, file: str, size: int, most: int) -> str:
    """A line of a log: what is done to some of the first sectors of a file, or a wait."""
    word = draw.choice(OPERATIONS)
    first = draw.randrange(size)
    count = draw.randint(1, min(size - first, most))
    numbers = {"sync": "0 0", "datasync": "0 0", "wait": f"{draw.choice(WAITS)} 0"}
    return f"{file} {word} {numbers.get(word, f'{first * 512} {count * 512}')}"


def log_lines(draw: random.Random, files: dict[str, int], most: int) -> list[str]:
    """The lines of a log on one or two files, of each of which so many sectors are used, by
    requests of at most so many.
    """
    chosen = draw.sample(list(files), draw.randint(1, min(2, len(files))))
    opened = [f"{file} {word}" for file in chosen for word in ("add", "open")]
    lines = [draw.choice(chosen) for _ in range(draw.randint(3, 12))]
    done = (operation(draw, it, files[it], most) for it in lines)
    return ["fio version 2 iolog", *opened, *done]


def used(draw: random.Random, files: dict[str, int]) -> dict[str, int]:
    """How many sectors of each file the logs use: all, or a few of the uppermost device alone, so
    that requests meet more often.
    """
    if draw.random() < 0.4:
        return files
    file = draw.choice([*files][-2:])
    return {file: draw.choice((2, 4, files[file]))}


def bundle(number: int, draw: random.Random) -> str:
    """The text of the bundle of a number."""
    scale = LARGE if number % 40 == 21 else 1
    sizes = [size * scale for size in SIZES]
    devices, below, tables = levels(draw), list(DISKS[: draw.randint(1, 2)]), {}
    files = {"/dev/ram0": sizes[0]}
    for level, names in enumerate(devices):
        for name in names:
            tables[name] = table(draw, sizes[: level + 2], below)
            tables[f"{name}-next"] = table(draw, sizes[: level + 2], below)
            files[f"/dev/mapper/{name}"] = sizes[level + 1]
        below = [f"/dev/mapper/{name}" for name in names] or below
    names = [name for level in devices for name in level]
    parts = [line for name, lines in tables.items() for line in (f"== table {name}", *lines)]
    parts += ["== script", *(f"ram {disk[-1]} {sizes[0]}" for disk in DISKS)]
    parts += [line for name in names for line in created(name, number % 10 == 0)]
    parts += [told for name in names for told in messages(draw, name, tables[name])]
    later = list(swaps(draw, names))
    if number % 10 == 1:
        kept = [name for name in names if f"load {name} {name}-next" not in later]
        later += bad_again(kept, tables)
    parts += ["replay", *later, "wait"]
    files = used(draw, files)
    for number in range(draw.randint(1, 3)):
        parts += [f"== log l{number + 1}", *log_lines(draw, files, 5 * scale)]
    return "\n".join(parts) + "\n"
