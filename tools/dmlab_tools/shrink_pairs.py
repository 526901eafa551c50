"""shrink_pairs: changes of two places of a bundle at once, of which neither holds alone, for
tools/shrink.

Each function here offers changed bundles, the ones that leave least first, and knows nothing of
the test.
"""

from __future__ import annotations

import itertools
import re
from typing import Iterator, NamedTuple

from dmlab_tools.shrink_bundle import GONE, Part, Spot, Word
from dmlab_tools.shrink_bundle import (
    creates,
    has_words,
    is_empty_log,
    line_at,
    spots,
    with_line,
    without,
)
from dmlab_tools.shrink_numbers import (
    Knob,
    commands,
    earlier,
    files_of,
    is_change,
    ranges,
    rows,
    with_range,
)

BLOCKS = ("addbadblock", "removebadblock", "queryblock")
# The least size of a dust line's blocks, in bytes.
SECTOR = 512


def created_loaded(parts: list[Part]) -> Iterator[list[Part]]:
    """The parts with a device that is created with the table that is loaded later."""
    made = {created(parts, spot)[0]: spot for spot in creates(parts)}
    for load in commands(parts):
        words = line_at(parts, load)
        if words[0] not in ("load", "reload") or words[1] not in made or made[words[1]] > load:
            continue
        create = made[words[1]]
        changed = with_line(parts, create, " ".join(["create", *words[1:3]]))
        for gone in beside(parts, words[1], create, load):
            yield without(changed, [load, *gone])


def created(parts: list[Part], spot: Spot) -> list[str]:
    """The name of the device that a command creates, and its table, if it has one."""
    return [word for word in line_at(parts, spot)[1:] if word != "--notable"]


def beside(parts: list[Part], name: str, create: Spot, load: Spot) -> Iterator[list[Spot]]:
    """What may go with a load: the resume behind it and a suspend before that, the resume, or
    nothing.
    """
    its = [spot for spot in commands(parts) if line_at(parts, spot)[1:2] == [name]]
    resumes = [it for it in its if it > load and line_at(parts, it)[0] == "resume"]
    before = [it for it in its if resumes and create < it < resumes[0]]
    suspends = [it for it in before if line_at(parts, it)[0] == "suspend"]
    if suspends:
        yield [suspends[-1], resumes[0]]
    if resumes:
        yield [resumes[0]]
    yield []


class Way(NamedTuple):
    """A linear line of a device: its first sector and the one behind its last, what it passes to,
    and the offset there.
    """

    first: int
    end: int
    below: str
    offset: int


def ways(parts: list[Part]) -> dict[str, list[Way]]:
    """For each word of a device with one table the linear lines of that table."""
    found = {}
    tables = {part.name: at for at, part in enumerate(parts) if part.kind == "table"}
    changes = [line_at(parts, it)[1] for it in commands(parts) if is_change(parts, it)]
    for number, spot in enumerate(creates(parts)):
        name, table = [*created(parts, spot), ""][:2]
        its = [line_at(parts, row) for row in rows(parts) if row.part == tables.get(table)]
        linear = [way_of(words) for words in its if words[2] == "linear"]
        if changes.count(name) == 1:
            found[f"/dev/mapper/{name}"] = found[f"/dev/dm-{number}"] = linear
    return found


def way_of(words: list[str]) -> Way:
    """The way that a linear line passes on. A log calls a device by its path."""
    first, length = int(words[0]), int(words[1])
    return Way(first, first + length, re.sub("^253:", "/dev/dm-", words[3]), int(words[4]))


def moved_down(parts: list[Part]) -> Iterator[list[Part]]:
    """The parts with logs that use what lies below a linear line: all logs of a device, or one."""
    for file, its in ways(parts).items():
        logs = {spot.part for spot in spots(parts, "log") if line_at(parts, spot)[0] == file}
        for chosen in [logs, *({log} for log in sorted(logs) if len(logs) > 1)]:
            places = [spot for spot in ranges(parts) if spot.part in chosen]
            used = [line_at(parts, spot) for spot in places if line_at(parts, spot)[0] == file]
            for way in its if chosen else ():
                if all(is_within(words, way) for words in used):
                    yield [
                        lower(part, file, way) if at in chosen else part
                        for at, part in enumerate(parts)
                    ]


def is_within(words: list[str], way: Way) -> bool:
    """Whether the range of a log's line lies on a linear line."""
    first, count = (int(word) // SECTOR for word in words[2:4])
    return way.first <= first and first + count <= way.end


def lower(part: Part, file: str, way: Way) -> Part:
    """A log that uses what lies below. What it adds and opens there already isn't added twice."""
    known = {tuple(line.split()[:2]) for line in part.lines}
    lines = []
    for line in part.lines:
        words = line.split()
        if words[:1] == [file]:
            words[0] = way.below
            if words[1] in ("read", "write", "trim"):
                words[2] = str(int(words[2]) + (way.offset - way.first) * SECTOR)
            is_double = words[1] in ("add", "open") and tuple(words[:2]) in known
            line = "" if is_double else " ".join(words)
        lines.append(line)
    return part._replace(lines=tuple(lines))


def joined_logs(parts: list[Part]) -> Iterator[list[Part]]:
    """The parts with two logs as one, whose lines stand one log's behind the other's."""
    logs = [at for at, it in enumerate(parts) if it.kind == "log" and not is_empty_log(it)]
    for one, other in itertools.permutations(logs, 2):
        keeps = min(one, other)
        joined = parts[one]._replace(lines=lines_of_both(parts[one], parts[other]))
        yield [
            joined if at == keeps else GONE if at in (one, other) else part
            for at, part in enumerate(parts)
        ]


def lines_of_both(one: Part, other: Part) -> tuple[str, ...]:
    """The lines of two logs. The second adds and opens no file that the first has open."""
    state: dict[str, str] = {}
    for line in one.lines[1:]:
        words = line.split()
        if words and words[1] in ("add", "open", "close"):
            state[words[0]] = words[1]
    lines = list(one.lines)
    for line in filter(has_words, other.lines[1:]):
        file, action = line.split()[:2]
        is_known = action == "add" and file in state
        if not is_known and not (action == "open" and state.get(file) == "open"):
            lines.append(line)
    return tuple(lines)


class Dust(NamedTuple):
    """A dust line: where it stands, its words, and the messages to it that name a block."""

    row: Spot
    words: list[str]
    messages: list[Spot]

    def size(self) -> int:
        """The sectors of a block."""
        return int(self.words[5]) // SECTOR


def dusts(parts: list[Part]) -> Iterator[Dust]:
    """The dust lines that messages name blocks of."""
    for row in rows(parts):
        words = line_at(parts, row)
        if words[2] == "dust":
            files = files_of(parts, parts[row.part].name)
            named = [it for it in commands(parts) if is_block_of(line_at(parts, it), words, files)]
            if named:
                yield Dust(row, words, named)


def is_block_of(words: list[str], row: list[str], files: set[str]) -> bool:
    """Whether a command names a block of a table's line, by the words for the table's devices."""
    if words[0] != "message" or words[3].lower() not in BLOCKS:
        return False
    first, length = int(row[0]), int(row[1])
    return f"/dev/mapper/{words[1]}" in files and first <= int(words[2]) < first + length


def with_blocks(parts: list[Part], dust: Dust, times: int, less: int) -> list[Part]:
    """The parts with each block's number so many times as large, and then so much less."""
    for spot in dust.messages:
        words = line_at(parts, spot)
        number = max(int(words[4]) * times - less, 0)
        parts = with_line(parts, spot, " ".join([*words[:4], str(number)]))
    return parts


def smaller_blocks(parts: list[Part]) -> Iterator[list[Part]]:
    """The parts with smaller blocks on a dust line, whose numbers name the same first sectors."""
    for dust in dusts(parts):
        for size in sorted({SECTOR, int(dust.words[5]) // 2}):
            if SECTOR <= size < int(dust.words[5]):
                changed = with_blocks(parts, dust, int(dust.words[5]) // size, 0)
                yield with_line(changed, dust.row, " ".join([*dust.words[:5], str(size)]))


def earlier_blocks(parts: list[Part]) -> Iterator[list[Part]]:
    """The parts with the blocks of a dust line, and the ranges from the first of them on, earlier
    by as much as may be.
    """
    for dust in dusts(parts):
        least = min(int(line_at(parts, spot)[4]) for spot in dust.messages)
        changed, sectors = with_blocks(parts, dust, 1, least), least * dust.size()
        files = files_of(parts, parts[dust.row.part].name)
        first = (int(dust.words[0]) + sectors) * SECTOR
        behind = [spot for spot in ranges(parts) if int(line_at(parts, spot)[2]) >= first]
        its = [spot for spot in behind if line_at(parts, spot)[0] in files]
        for places in (its, behind) if least else ():
            yield earlier(changed, places, sectors)


def alike(parts: list[Part]) -> dict[tuple[str, str, str], list[Spot]]:
    """The lines of logs that have one range of one file, of those that more than one has."""
    found: dict[tuple[str, str, str], list[Spot]] = {}
    for spot in ranges(parts):
        file, _, first, length = line_at(parts, spot)
        found.setdefault((file, first, length), []).append(spot)
    return {key: its for key, its in found.items() if len(its) > 1}


def alike_ranges(parts: list[Part]) -> Iterator[list[Part]]:
    """The parts with a range that several lines have narrower or earlier in all of them."""
    for (_, first_word, length), its in alike(parts).items():
        first, count = int(first_word) // SECTOR, int(length) // SECTOR
        fewer = [(first, less) for less in (1, count // 2) if 0 < less < count]
        sooner = [(at, count) for at in (0, first // 2, first - 1) if 0 <= at < first]
        for place in dict.fromkeys(fewer + sooner):
            changed = parts
            for spot in its:
                changed = with_range(changed, spot, *place)
            yield changed


def times_of(parts: list[Part]) -> Iterator[tuple[Spot, int]]:
    """The places of all times: up and down times, waits and sleeps."""
    for spot in rows(parts):
        if line_at(parts, spot)[2] == "flakey":
            yield from ((spot, 5), (spot, 6))
    for spot in spots(parts, "log"):
        if line_at(parts, spot)[1] == "wait":
            yield spot, 2
    for spot in commands(parts):
        if line_at(parts, spot)[0] == "sleep":
            yield spot, 1


def with_times(parts: list[Part], over: int) -> list[Part]:
    """The parts with each time that much smaller. A second of an interval is the least."""
    for spot, word in times_of(parts):
        words = line_at(parts, spot)
        number = int(words[word])
        least = 1 if parts[spot.part].kind == "table" and number else 0
        words[word] = str(max(number // over, least))
        parts = with_line(parts, spot, " ".join(words))
    return parts


def shorter_times(parts: list[Part]) -> Iterator[list[Part]]:
    """The parts with all times a tenth, a fifth, a third or a half of what they are, and with a
    flakey line up and down for one second each or as long as it is up.
    """
    yield from (with_times(parts, over) for over in (10, 5, 3, 2))
    for spot in rows(parts):
        words = line_at(parts, spot)
        if words[2] == "flakey":
            for up, down in dict.fromkeys([("0", "1"), ("1", "1"), (words[5], words[5])]):
                if int(up) + int(down) and int(up) + int(down) < int(words[5]) + int(words[6]):
                    yield with_line(parts, spot, " ".join([*words[:5], up, down, *words[7:]]))


def message_knobs(parts: list[Part]) -> Iterator[Knob]:
    """The numbers of blocks in messages, and the sectors that messages go to."""
    for spot in reversed(commands(parts)):
        words = line_at(parts, spot)
        if words[0] == "message":
            yield Knob(Word(*spot, 2), 0, False)
            if len(words) > 4 and words[4].isdigit():
                yield Knob(Word(*spot, 4), 0, False)
