"""shrink_numbers: what can be made plainer or smaller in the lines that are left, for
tools/shrink.

Each function here offers changes of a bundle, most of them as whole bundles, and knows nothing of
the test.
"""

from __future__ import annotations

import collections
from typing import Iterator, NamedTuple

from dmlab_tools.shrink_bundle import (
    RANGES,
    Part,
    Spot,
    Word,
    creates,
    line_at,
    spots,
    with_line,
    with_word,
)


class Knob(NamedTuple):
    """A number that may get smaller, down to its least; of a time only halves are tried."""

    word: Word
    least: int
    is_time: bool


# Pairs of a log's or script's words, of which the second can't stand without the first, nor go on
# without the second.
PAIRS = {"close": "open", "remove": "create", "suspend": "resume"}
# How many values stand behind the features of flakey.
VALUES = {"corrupt_bio_byte": 4, "random_read_corrupt": 1, "random_write_corrupt": 1}


def rows(parts: list[Part]) -> list[Spot]:
    """The target lines of all tables."""
    return [spot for spot in spots(parts, "table") if not line_at(parts, spot)[0].startswith("#")]


def commands(parts: list[Part]) -> list[Spot]:
    """The commands of the script."""
    return [spot for spot in spots(parts, "script") if not line_at(parts, spot)[0].startswith("#")]


def kind_at(parts: list[Part], spot: Spot) -> tuple[str, str]:
    """The word of a line that tells what it does, and the one that it does it to."""
    words = line_at(parts, spot)
    return (
        (words[1], words[0])
        if parts[spot.part].kind == "log"
        else (words[0], words[-1 if len(words) < 2 else 1])
    )


def pairs(parts: list[Part]) -> Iterator[list[Spot]]:
    """Lines that may go together only: a close with the next open, a remove with the next create,
    and so on.
    """
    waiting: dict[tuple[int, str, str], Spot] = {}
    for spot in [*spots(parts, "log"), *commands(parts)]:
        kind, name = kind_at(parts, spot)
        if (before := waiting.pop((spot.part, kind, name), None)) is not None:
            yield [before, spot]
        if kind in PAIRS:
            waiting[spot.part, PAIRS[kind], name] = spot


def merged_waits(parts: list[Part]) -> Iterator[list[Part]]:
    """The parts with one wait less in a log. The next one of the log is as long as both were."""
    waits = [spot for spot in spots(parts, "log") if line_at(parts, spot)[1] == "wait"]
    for first, second in zip(waits, waits[1:]):
        if first.part == second.part:
            file, action, time, length = line_at(parts, second)
            whole = int(time) + int(line_at(parts, first)[2])
            yield with_line(
                with_line(parts, first, ""), second, f"{file} {action} {whole} {length}"
            )


def plain(parts: list[Part]) -> Iterator[list[Part]]:
    """The parts with a linear line in place of a flakey, dust or delay one."""
    for spot in rows(parts):
        words = line_at(parts, spot)
        if words[2] in ("flakey", "dust", "delay"):
            yield with_line(parts, spot, " ".join([*words[:2], "linear", *words[3:5]]))


def features_of(words: list[str]) -> list[list[str]]:
    """The features of a flakey line, each with its values."""
    left, found = words[8:], []
    while left:
        count = 1 + VALUES.get(left[0], 0)
        found.append(left[:count])
        left = left[count:]
    return found


def with_less_features(parts: list[Part]) -> Iterator[list[Part]]:
    """The parts with one feature less on a flakey line, or one group on a delay line."""
    for spot in rows(parts):
        words = line_at(parts, spot)
        if words[2] == "delay" and len(words) > 6:
            yield with_line(parts, spot, " ".join(words[:6]))
        found = features_of(words) if words[2] == "flakey" else []
        for at in range(len(found)):
            left = [word for feature in found[:at] + found[at + 1 :] for word in feature]
            yield with_line(
                parts, spot, " ".join([*words[:7], *([str(len(left)), *left] if left else [])])
            )


def below(parts: list[Part]) -> dict[str, tuple[str, int]]:
    """For each word of a device whose only table is one linear line: the device and the offset
    that it passes to.
    """
    found, names = {}, [line_at(parts, spot)[1:] for spot in creates(parts)]
    tables = {part.name: at for at, part in enumerate(parts) if part.kind == "table"}
    for number, (name, table) in enumerate(names):
        lines = [line_at(parts, spot) for spot in rows(parts) if spot.part == tables.get(table)]
        loads = sum(
            line_at(parts, spot)[1:2] == [name]
            for spot in commands(parts)
            if is_change(parts, spot)
        )
        if len(lines) == 1 and lines[0][2] == "linear" and loads == 1:
            for word in (f"/dev/mapper/{name}", f"/dev/dm-{number}", f"253:{number}"):
                found[word] = (lines[0][3], int(lines[0][4]))
    return found


def is_change(parts: list[Part], spot: Spot) -> bool:
    """Whether a command gives a device a table."""
    return line_at(parts, spot)[0] in ("create", "load", "reload")


def straight(parts: list[Part]) -> Iterator[list[Part]]:
    """The parts with a table's line that refers to what lies below a linear device, in place of
    that device.
    """
    lower = below(parts)
    for spot in rows(parts):
        words = line_at(parts, spot)
        for at in range(3, len(words) - 1, 3):
            if words[at] in lower and (at == 3 or words[2] == "delay"):
                device, offset = lower[words[at]]
                changed = [*words[:at], device, str(int(words[at + 1]) + offset), *words[at + 2 :]]
                yield with_line(parts, spot, " ".join(changed))


def ranges(parts: list[Part]) -> list[Spot]:
    """The lines of logs that have a range."""
    return [spot for spot in spots(parts, "log") if line_at(parts, spot)[1] in RANGES]


def with_range(parts: list[Part], spot: Spot, first: int, count: int) -> list[Part]:
    """The parts with other sectors in the line of a log."""
    file, action, _, _ = line_at(parts, spot)
    return with_line(parts, spot, f"{file} {action} {512 * first} {512 * count}")


def earlier(parts: list[Part], places: list[Spot], sectors: int) -> list[Part]:
    """The parts with the ranges of some lines so many sectors earlier."""
    for spot in places if sectors else []:
        first, count = [int(word) // 512 for word in line_at(parts, spot)[2:]]
        parts = with_range(parts, spot, first - sectors, count)
    return parts


def moved(parts: list[Part]) -> Iterator[list[Part]]:
    """The parts with all ranges on one file moved so that the least one begins at 0."""
    found = collections.defaultdict(list)
    for spot in ranges(parts):
        found[line_at(parts, spot)[0]].append(spot)
    for places in found.values():
        yield earlier(parts, places, min(int(line_at(parts, spot)[2]) for spot in places) // 512)


def names_of(parts: list[Part], table: str) -> set[str]:
    """The names of the devices that ever have a table."""
    words = [line_at(parts, spot) for spot in commands(parts)]
    return {it[1] for it in words if it[2:3] == [table] and it[0] in ("create", "load", "reload")}


def files_of(parts: list[Part], table: str) -> set[str]:
    """The words for the devices that ever have a table."""
    names = names_of(parts, table)
    numbers = [at for at, spot in enumerate(creates(parts)) if line_at(parts, spot)[1] in names]
    return {f"/dev/mapper/{name}" for name in names} | {f"/dev/dm-{number}" for number in numbers}


def closer(parts: list[Part], table: str, end: int, sectors: int) -> list[Part]:
    """The parts where what goes to the sectors from `end` on of a table's devices goes to so many
    sectors earlier: ranges of logs, and messages.
    """
    names, files = names_of(parts, table), files_of(parts, table)
    behind = [spot for spot in ranges(parts) if line_at(parts, spot)[0] in files]
    behind = [spot for spot in behind if int(line_at(parts, spot)[2]) >= 512 * end]
    for spot in commands(parts):
        words = line_at(parts, spot)
        if words[0] == "message" and words[1] in names and int(words[2]) >= end:
            parts = with_word(parts, Word(*spot, 2), int(words[2]) - sectors)
    return earlier(parts, behind, sectors)


def with_number(parts: list[Part], knob: Knob, value: int) -> list[Part]:
    """The parts with a smaller number. Where a table's line gets shorter, the ranges and messages
    behind it move along.
    """
    words, part = line_at(parts, knob.word), parts[knob.word.part]
    changed = with_word(parts, knob.word, value)
    if part.kind != "table" or knob.word.word != 1:
        return changed
    return closer(changed, part.name, int(words[0]) + int(words[1]), int(words[1]) - value)


def without_row(parts: list[Part]) -> Iterator[list[Part]]:
    """The parts without a line of a table. What goes to sectors behind it moves along."""
    for spot in rows(parts):
        first, length = (int(word) for word in line_at(parts, spot)[:2])
        table = parts[spot.part].name
        yield closer(with_line(parts, spot, ""), table, first + length, length)


def row_knobs(words: list[str]) -> Iterator[tuple[int, int, bool]]:
    """The places of a table line's numbers: offsets, times, and its length, each with its least
    value.
    """
    if words[2] == "delay":
        for at in range(3, len(words), 3):
            yield from ((at + 1, 0, False), (at + 2, 0, True))
    elif len(words) > 4:
        yield 4, 0, False
    if words[2] == "flakey":
        yield from ((5, 0, True), (6, 1, True), (6, 0, True))
    yield 1, 1, False


def line_knobs(kind: str, words: list[str]) -> Iterator[tuple[int, int, bool]]:
    """The places of a line's numbers that may get smaller."""
    if kind == "table":
        yield from row_knobs(words)
    elif kind == "log" and words[1] == "wait":
        yield 2, 0, True
    elif words[0] in ("sleep", "ram"):
        yield (1, 0, True) if words[0] == "sleep" else (2, 1, False)


def knobs(parts: list[Part]) -> Iterator[Knob]:
    """All numbers that may get smaller: those of logs, of tables, and of the script, the last
    lines first.
    """
    for places in (spots(parts, "log"), rows(parts), commands(parts)):
        for spot in reversed(places):
            for at, least, is_time in line_knobs(parts[spot.part].kind, line_at(parts, spot)):
                yield Knob(Word(*spot, at), least, is_time)
