"""shrink_bundle: a bundle as parts whose lines can be left out while the others keep their
numbers, for tools/shrink.

A line of a script or a log that is left out becomes a blank one, since reports name these lines by
number, and a write's bytes are those of its line and its log. A line of a table, of a history or
before the first heading is deleted, since no report names it. Inside the program it stands as a
blank line, so that places stay true.
"""

from __future__ import annotations

import re
from typing import Iterable, Iterator, Match, NamedTuple


class Part(NamedTuple):
    """A part of a bundle."""

    kind: str
    name: str
    lines: tuple[str, ...]


class Spot(NamedTuple):
    """Where a line stands: part and line count from 0."""

    part: int
    line: int


class Word(NamedTuple):
    """Where a word stands: part, line and word count from 0."""

    part: int
    line: int
    word: int


GONE = Part("gone", "", ())
NUMBERED = ("script", "log")
NO_DEVICE = "/dev/dm-4294967295"
RANGES = ("read", "write", "trim")


def read_bundle(text: str) -> list[Part]:
    """The parts of a bundle. What stands before the first heading is a part, too."""
    parts: list[tuple[str, str, list[str]]] = [("top", "", [])]
    for line in text.removesuffix("\n").split("\n"):
        if line.startswith("=="):
            kind, *name = line[2:].split()
            parts.append((kind, " ".join(name), []))
        else:
            parts[-1][2].append(line)
    return [Part(kind, name, tuple(lines)) for kind, name, lines in parts]


def has_words(line: str) -> bool:
    """Whether a line has a word."""
    return line.strip() != ""


def part_text(part: Part) -> str:
    """A part with its heading. Blank lines stand only where they keep the numbers of those behind
    them.
    """
    kept = [line if has_words(line) else "" for line in part.lines]
    if part.kind not in NUMBERED:
        kept = list(filter(None, kept))
    while kept and not kept[-1]:
        kept.pop()
    heading = (
        []
        if part.kind in ("top", "gone")
        else [" ".join(filter(None, ("==", part.kind, part.name)))]
    )
    return "".join(f"{line}\n" for line in heading + kept)


def text_of(parts: list[Part]) -> str:
    """The bundle of these parts."""
    return "".join(map(part_text, parts))


def count_lines(text: str) -> int:
    """The lines of a bundle that have words, headings too."""
    return sum(map(has_words, text.split("\n")))


def place_of(text: str, part: str, line: int) -> int:
    """The line of the bundle, counted from 1, for a line of a part such as `table t` or `script`."""
    if part == "bundle":
        return line
    for number, heading in enumerate(text.split("\n"), 1):
        if heading.startswith("==") and heading[2:].split() == part.split():
            return number + line
    return 0


def spots(parts: list[Part], *kinds: str) -> list[Spot]:
    """The lines of parts of these kinds that may go, in their order: those with words, but for a
    log's header.
    """
    return [
        Spot(at, line)
        for at, part in enumerate(parts)
        if part.kind in kinds
        for line, text in enumerate(part.lines)
        if has_words(text) and (part.kind != "log" or line)
    ]


def line_at(parts: list[Part], spot: Spot | Word) -> list[str]:
    """The words of a line."""
    return parts[spot.part].lines[spot.line].split()


def with_line(parts: list[Part], spot: Spot, text: str) -> list[Part]:
    """The parts with another line at a place. A table's lines start where the ones before end."""
    part = parts[spot.part]
    changed = part._replace(lines=(*part.lines[: spot.line], text, *part.lines[spot.line + 1 :]))
    if part.kind == "table":
        changed = changed._replace(lines=tuple(closed(changed.lines)))
    return [*parts[: spot.part], changed, *parts[spot.part + 1 :]]


def with_word(parts: list[Part], word: Word, text: str | int) -> list[Part]:
    """The parts with another word at a place."""
    words = line_at(parts, word)
    words[word.word] = str(text)
    return with_line(parts, Spot(word.part, word.line), " ".join(words))


def is_row(line: str) -> bool:
    """Whether a line of a table is one of its target lines."""
    return has_words(line) and not line.startswith("#")


def closed(lines: Iterable[str]) -> Iterator[str]:
    """A table's lines, of which each one starts where the one before ends."""
    end = 0
    for line in lines:
        if not is_row(line):
            yield line
            continue
        start, length, *rest = line.split()
        yield line if int(start) == end else " ".join([str(end), length, *rest])
        end += int(length)


def without(parts: list[Part], chosen: Iterable[Spot]) -> list[Part]:
    """The parts without some lines. Words that count devices are those of the same devices, or of
    none, as before.
    """
    chosen = set(chosen)
    numbers, changed = numbers_after(parts, chosen), {spot.part for spot in chosen}
    blanked = [
        without_lines(part, at, chosen) if at in changed else part for at, part in enumerate(parts)
    ]
    return blanked if numbers is None else [counted(part, numbers) for part in blanked]


def without_lines(part: Part, at: int, chosen: set[Spot]) -> Part:
    """A part without some of its lines."""
    lines = ["" if Spot(at, line) in chosen else text for line, text in enumerate(part.lines)]
    return part._replace(lines=tuple(closed(lines) if part.kind == "table" else lines))


def creates(parts: list[Part]) -> list[Spot]:
    """The lines of the script that create devices, in their order."""
    return [spot for spot in spots(parts, "script") if line_at(parts, spot)[0] == "create"]


def numbers_after(parts: list[Part], chosen: set[Spot]) -> dict[int, int | None] | None:
    """For each device's number the one that it has where some lines are left out, or None where
    all stay.
    """
    stays = [spot not in chosen for spot in creates(parts)]
    if all(stays):
        return None
    return {at: sum(stays[:at]) if stay else None for at, stay in enumerate(stays)}


def counted(part: Part, numbers: dict[int, int | None]) -> Part:
    """A table or log whose words /dev/dm-N and 253:N tell the devices by their new numbers."""

    def word(found: re.Match[str]) -> str:
        """The word of the same device."""
        number = numbers.get(int(found[2]), int(found[2]))
        return NO_DEVICE if number is None else f"{found[1]}{number}"

    if part.kind not in ("table", "log"):
        return part
    pattern = r"(?<!\S)(/dev/dm-|253:)([0-9]+)(?!\S)"
    return part._replace(lines=tuple(re.sub(pattern, word, line) for line in part.lines))


def grown(parts: list[Part], chosen: list[Spot]) -> list[Part]:
    """The parts without some lines of a table, in whose place the line before, or else the one
    behind, is larger.
    """
    at, lines = chosen[0].part, list(parts[chosen[0].part].lines)
    gone, last, gap = {spot.line for spot in chosen}, None, 0
    for number, line in enumerate(lines):
        if not is_row(line):
            continue
        if number not in gone:
            lines[number], gap, last = longer(line, gap if last is None else 0), 0, number
            continue
        length, lines[number] = int(line.split()[1]), ""
        if last is None:
            gap += length
        else:
            lines[last] = longer(lines[last], length)
    return [*parts[:at], parts[at]._replace(lines=tuple(closed(lines))), *parts[at + 1 :]]


def longer(line: str, sectors: int) -> str:
    """A table line with more sectors."""
    start, length, *rest = line.split()
    return " ".join([start, str(int(length) + sectors), *rest]) if sectors else line


def without_parts(parts: list[Part], chosen: Iterable[int]) -> list[Part]:
    """The parts without some whole ones. The places of the others stay."""
    return [GONE if at in chosen else part for at, part in enumerate(parts)]


def emptied(parts: list[Part], chosen: Iterable[int]) -> list[Part]:
    """The parts with nothing but the header in some logs, whose names and numbers stay."""
    return [
        part._replace(lines=part.lines[:1]) if at in chosen else part
        for at, part in enumerate(parts)
    ]


def is_empty_log(part: Part) -> bool:
    """Whether a part is a log of no line but its header."""
    return part.kind == "log" and not any(map(has_words, part.lines[1:]))


def renumbered(parts: list[Part], chosen: Iterable[int]) -> list[Part]:
    """The parts without the blank lines of some parts, and without those of them that are logs of
    no line.
    """

    def changed(part: Part) -> Part:
        """The part without blank lines, or none."""
        return (
            GONE
            if is_empty_log(part)
            else part._replace(lines=tuple(filter(has_words, part.lines)))
        )

    return [changed(part) if at in chosen else part for at, part in enumerate(parts)]
