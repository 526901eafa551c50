"""finding_tables: what the tables of a bundle do to a bio, for tests/findings.py.

Read from docs/FORMATS.md: which lines a bio has pieces on, and whether a line passes a piece on,
drops it, fails it or answers it with zeroes, by the clock and by what dust was told.
"""

from __future__ import annotations

import dataclasses
import re
from typing import Iterator, NamedTuple


class Line(NamedTuple):
    """A line of a table, its number counted from 1 without comments, and its device, where it has
    one, as a trace names it.
    """

    number: int
    start: int
    length: int
    target: str
    device: str
    offset: int
    words: list[str]


class Culprit(NamedTuple):
    """The line of a table that did it: the mapped device, the line's number and its type."""

    device: str
    number: int
    target: str


@dataclasses.dataclass(frozen=True)
class Piece:
    """A piece of a bio: the line, the piece's first sector in the bio, how many sectors it has,
    where it goes on the line's device, and what the line does: passes, drops, fails or zeroes.
    """

    line: Line
    at: int
    count: int
    first: int
    done: str


@dataclasses.dataclass
class Table:
    """A table that was loaded at a moment, with the bad blocks of its dust lines, by the lines'
    numbers, and the lines that are enabled.
    """

    lines: list[Line]
    loaded: int
    bad: dict[int, set[int]] = dataclasses.field(default_factory=dict)
    enabled: set[int] = dataclasses.field(default_factory=set)

    def line_at(self, sector: int) -> Line:
        """The line that has a sector."""
        return next(it for it in self.lines if it.start <= sector < it.start + it.length)

    def hear(self, sector: int, words: list[str]) -> None:
        """Does what a message to the line at a sector says."""
        number = self.line_at(sector).number
        if words[0] == "addbadblock":
            self.bad.setdefault(number, set()).add(int(words[1]))
        elif words[0] == "enable":
            self.enabled.add(number)
        else:
            raise ValueError(f"no message of these bundles: {words[0]}")

    def does(self, line: Line, kind: str, at: int, now: int) -> str:
        """What a line does to a piece at a sector of the device, at a moment."""
        if line.target in ("zero", "error"):
            return "zeroes" if line.target == "zero" else "fails"
        if line.target == "flakey":
            return flakey_does(line.words, kind, (now - self.loaded) // 1000000)
        if line.target == "dust" and kind != "flush" and line.number in self.enabled:
            block, bad = (at - line.start) * 512 // int(line.words[0]), self.bad[line.number]
            if kind == "read":
                return "fails" if block in bad else "passes"
            bad.discard(block)
        return "passes"

    def pieces(self, kind: str, first: int, count: int, now: int) -> Iterator[Piece]:
        """The pieces of a bio in their order."""
        at = first
        while at < first + count:
            line = self.line_at(at)
            end = min(first + count, line.start + line.length)
            if line.target == "dust":
                block = int(line.words[0]) // 512
                end = min(end, at - (at - line.start) % block + block)
            below = line.offset + at - line.start
            yield Piece(line, at - first, end - at, below, self.does(line, kind, at, now))
            at = end


def flakey_does(words: list[str], kind: str, second: int) -> str:
    """What a flakey line with these words does to a bio in this second since it was loaded."""
    up, down, told = int(words[0]), int(words[1]), words[3:]
    if second % (up + down) < up:
        return "passes"
    if not told or ("error_reads" in told if kind == "read" else "error_writes" in told):
        return "fails"
    return "drops" if kind != "read" and "drop_writes" in told else "passes"


# ---- reading a bundle
def named(word: str, numbers: dict[str, str]) -> str:
    """A device as a trace names it."""
    return word[5:] if word.startswith("/dev/ram") else numbers[word.rpartition("/")[2]]


def lines_of(text: list[str], numbers: dict[str, str]) -> list[Line]:
    """The lines of a table's text."""
    found: list[Line] = []
    for words in (it.split() for it in text if it.strip() and it[0] != "#"):
        device, offset = (named(words[3], numbers), int(words[4])) if words[3:] else ("-", 0)
        place = len(found) + 1, int(words[0]), int(words[1])
        found.append(Line(*place, words[2], device, offset, words[5:]))
    return found


class Bundle:
    """The parts of a bundle: its tables' lines, its script, and its logs' names and lines."""

    def __init__(self, text: str) -> None:
        parts = re.split(r"(?m)^== (.*)\n", text)
        bodies = dict(zip(parts[1::2], (it.split("\n") for it in parts[2::2])))
        self.script = bodies["script"]
        made = [it.split()[1] for it in self.script if it.startswith("create ")]
        numbers = {name: f"dm{number}" for number, name in enumerate(made)}
        self.tables = {
            it[6:]: lines_of(lines, numbers)
            for it, lines in bodies.items()
            if it.startswith("table ")
        }
        self.logs = [(it[4:], lines) for it, lines in bodies.items() if it.startswith("log ")]

    def action(self, log: int, line: int) -> str:
        """The action of a line of a log."""
        return self.logs[log - 1][1][line - 1].split()[1]
