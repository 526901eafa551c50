"""recorded_moves: where the sectors of a compacted bundle stood before, by the comments that
`tools/bundle --compact` writes, for tools/aftermath.
"""

from __future__ import annotations

import re
from typing import Iterable, Iterator, NamedTuple, Optional


class Move(NamedTuple):
    """Some sectors in a row: the first one on the machine, how many, and the first one in the
    bundle.
    """

    before: int
    size: int
    now: int


class Segment(NamedTuple):
    """Some sectors of a device in a row: the first one, how many, and the disk with its first
    sector to which writes go, or None where they go nowhere.
    """

    first: int
    size: int
    disk: Optional[int]
    place: int


def moves_of(lines: Iterable[str], device: str) -> list[Move]:
    """The moves of a device that the comments of a bundle tell."""
    form = re.compile(re.escape(f"# {device} ") + r"(\d+)\+(\d+) is (\d+)\+\2")
    return [Move(*map(int, found.groups())) for found in map(form.fullmatch, lines) if found]


def size_before(lines: Iterable[str]) -> int | None:
    """The sectors that the recorded device of a compacted bundle had."""
    form = re.compile(r"# log \S+: recording .*, of (\d+) sectors")
    return next((int(found[1]) for found in map(form.fullmatch, lines) if found), None)


def moved_sector(moves: list[Move], sector: int) -> int:
    """Where a sector of the bundle stood on the machine."""
    for before, size, now in moves:
        if now <= sector < now + size:
            return before + sector - now
    return sector


def moved_segments(moves: list[Move], segments: Iterable[Segment]) -> Iterator[Segment]:
    """The segments by the machine's sectors."""
    for segment in segments:
        for before, size, now in moves:
            low, high = max(now, segment.first), min(now + size, segment.first + segment.size)
            if low < high:
                place = segment.place + low - segment.first
                yield Segment(before + low - now, high - low, segment.disk, place)
