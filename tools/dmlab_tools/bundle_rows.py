"""bundle_rows: reads the lines of device-mapper tables, for tools/bundle."""

from __future__ import annotations

import re
from typing import NamedTuple

from dmlab_tools.fio_logs import Fault, Place, is_number, is_plain

LONGEST_DELAY, LARGEST_TABLE = 3600000, 1099511627776
# How many words each target takes behind its name; flakey takes four or more.
COUNTS = {
    "linear": (2,),
    "zero": (0,),
    "error": (0,),
    "flakey": (),
    "dust": (3,),
    "delay": (3, 6, 9),
}


class Row(NamedTuple):
    """A line of a table."""

    place: Place
    start: int
    length: int
    kind: str
    arguments: list[str]

    def references(self) -> range:
        """Where the devices stand among the words; behind each is its offset."""
        every = range(0, len(self.arguments), 3)
        return every if self.kind == "delay" else every[:1]

    def block(self) -> int:
        """The sectors of a block of dust, and else 0."""
        return int(self.arguments[2]) // 512 if self.kind == "dust" else 0

    def is_random(self) -> bool:
        """Whether the line draws bytes by chance."""
        return any(word.startswith("random_") for word in self.arguments[4:])


def fits(kind: str, words: list[str]) -> bool:
    """Whether a target takes these words: as many as it has, and numbers where they are."""
    if kind == "flakey" and len(words) >= 4:
        counted = len(words) == 4 or is_number(words[4]) and int(words[4]) == len(words) - 5
        return counted and all(map(is_number, words[1:4]))
    numbers = [word for at, word in enumerate(words) if at % 3]
    return len(words) in COUNTS[kind] and all(map(is_number, numbers))


def no_target(name: str, kind: str) -> str:
    """What is told of a target that dmlab doesn't have."""
    return (
        f"dmlab has no target {kind}: --compact or --only leaves out {name} if no log needs it, "
        f"--disk /dev/mapper/{name}=/dev/ramN has a memory disk stand for it"
    )


def read_row(place: Place, name: str, words: list[str], end: int) -> Row:
    """A line of a device's table, which begins at the sector where the one before ended."""
    if len(words) < 3 or not all(map(is_number, words[:2])):
        raise Fault(place, "not [NAME:] START LENGTH TARGET [ARGUMENTS]")
    row = Row(place, int(words[0]), int(words[1]), words[2], words[3:])
    if row.kind not in COUNTS:
        raise Fault(place, no_target(name, row.kind))
    if not fits(row.kind, row.arguments) or not all(map(is_plain, words)):
        raise Fault(place, f"{row.kind} has other arguments in dmlab")
    if row.kind == "delay" and max(map(int, row.arguments[2::3])) > LONGEST_DELAY:
        raise Fault(place, "a delay of dmlab is an hour at most")
    if row.start != end:
        raise Fault(place, f"the line begins at sector {row.start}, and not at {end}")
    if row.length == 0 or row.start + row.length > LARGEST_TABLE:
        raise Fault(place, f"the line is of no sector, or reaches past the sector {LARGEST_TABLE}")
    return row


def numbered(word: str) -> str:
    """A disk's word by its number, where the name alone tells it, so that two words of one disk
    are one.
    """
    if found := re.fullmatch(r"/dev/(ram|loop)([0-9]+)", word):
        return f"{ {'ram': 1, 'loop': 7}[found[1]]}:{int(found[2])}"
    if found := re.fullmatch(r"/dev/sd([a-p])([1-9]|1[0-5])?", word):
        return f"8:{16 * (ord(found[1]) - ord('a')) + int(found[2] or 0)}"
    return word
