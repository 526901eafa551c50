"""compact_stack: finds what stays of a stack of devices where only the sectors that logs touch are
kept, and where that stands then, for `tools/bundle --compact`.

What is kept. Each sector of a table line stands for one sector of each device to which the line
refers. Two sectors are partners if one stands for the other through a line, or if both lie in one
block of a dust line. The kept sectors are those that a log touches, the first sector of each line
that would else have none, the partners of all these, the partners of those, and so on. The kept
sectors of a device move together in their order, with nothing between them: the new number of a
sector is how many kept sectors of its device stand before it. A line stays one line of its target.
It has those of its sectors that are kept. Its new offset is how many kept sectors stand before its
old offset.

Why answers stay the same. Take a line that begins at the sector `s`, with a reference to the
sector `o` of a device below.
1. If the line keeps the sector `x`, the device below keeps `o + (x - s)`, and the other way round,
   since they are partners. So as many kept sectors stand between `s` and `x` as between `o` and
   `o + (x - s)`. So the new line takes the new `x` to where the partner of the old one is now.
2. The sectors of a request are all kept, and stand in a row before and after. So the request is as
   long as before. It is cut at the edges of lines: these lie before the same sectors of it.
3. A dust line keeps whole blocks, but for a last one that was short before. So a kept block is a
   whole block again, and its sectors have the same places in it. So a request is cut at the same
   edges, and two of its sectors are in one block if they were before.
4. So each piece of a request is as long as before, comes to a line of the same target with the
   same words, and is cut below in the same way. flakey counts the bytes of such a piece. A flush
   has one piece for each line, and each line is still there. So a run of the new bundle has the
   same events as one of the old, and the same answers, except for the bytes that flakey's random
   corruption draws: the offset of its line seeds them.

What can be too much. If lines let a device stand for itself, moved by some sectors, then partners
of partners go on through all of it. So they do where blocks of two dust lines overlap in part.
"""

from __future__ import annotations

from bisect import bisect_right
from typing import Iterator, NamedTuple

from dmlab_tools.compact_spans import Spans

# How often partners are looked for at most. Lines that let a device stand for itself, moved by
# some sectors, would else go on through all of it.
MOST_TURNS = 1000000
ALONE = "many for this line alone, as blocks of dust or ways through the tables overlap"


class Line(NamedTuple):
    """A table line: its sectors, those of a block of dust or 0, and its references as devices and
    offsets.
    """

    start: int
    length: int
    block: int
    below: list[tuple[str, int]]


class TooMany(Exception):
    """More would be kept than there may be, and what that is."""


class Kept:
    """The kept sectors of each device. A device without lines is a disk."""

    def __init__(self, most: int) -> None:
        self.most, self.disk_sectors, self.turns = most, 0, 0
        self.spans: dict[str, Spans] = {}
        self.lines: dict[str, list[Line]] = {}
        self.starts: dict[str, list[int]] = {}
        self.above: dict[str, list[tuple[str, Line, int]]] = {}

    def put(self, device: str, lines: list[Line]) -> None:
        """A mapped device, put behind those that its lines refer to and before any of its own
        sectors.
        """
        self.lines[device], self.starts[device] = lines, [line.start for line in lines]
        for line in lines:
            for lower, offset in line.below:
                self.above.setdefault(lower, []).append((device, line, offset))
        for line in lines:
            for lower, offset in line.below:
                for first, end in self.of(lower).within(offset, offset + line.length):
                    self.add(device, line.start + first - offset, line.start + end - offset)

    def of(self, device: str) -> Spans:
        """The kept sectors of a device."""
        return self.spans.setdefault(device, Spans())

    def add(self, device: str, first: int, end: int) -> None:
        """Keeps the sectors from `first` on and before `end`, and all that belongs to them."""
        work, before = [(device, first, end)], self.disk_sectors
        while work:
            device, first, end = work.pop()
            for new in self.of(device).add(first, end):
                self.count(device, new[1] - new[0], before)
                work += self.partners(device, *new)

    def count(self, device: str, sectors: int, before: int) -> None:
        """Counts new sectors, and refuses too many. `before` were kept before they were added."""
        self.turns += 1
        self.disk_sectors += 0 if device in self.lines else sectors
        if self.turns > MOST_TURNS:
            raise TooMany(f"{MOST_TURNS} places in the tables, {ALONE}")
        if self.disk_sectors > self.most:
            is_alone = self.disk_sectors - before > self.most // 2
            raise TooMany(f"{self.most} sectors of all disks" + (f", {ALONE}" if is_alone else ""))

    def partners(self, device: str, first: int, end: int) -> Iterator[tuple[str, int, int]]:
        """The partners of some sectors of a device, above and below."""
        for upper, line, offset in self.above.get(device, []):
            low, high = max(first, offset), min(end, offset + line.length)
            if low < high:
                yield upper, line.start + low - offset, line.start + high - offset
        for line in self.lines_at(device, first, end):
            behind = line.start + line.length
            low, high = max(first, line.start), min(end, behind)
            if line.block:
                low -= (low - line.start) % line.block
                high = min(behind, high + (line.start - high) % line.block)
            yield device, low, high
            for lower, offset in line.below:
                yield lower, offset + low - line.start, offset + high - line.start

    def lines_at(self, device: str, first: int, end: int) -> Iterator[Line]:
        """The lines of a device that have some of these sectors."""
        lines = self.lines.get(device, [])
        for line in lines[max(0, bisect_right(self.starts.get(device, []), first) - 1) :]:
            if line.start >= end:
                return
            yield line

    def fill(self) -> None:
        """Keeps the first sector of each line that has none."""
        for device, lines in self.lines.items():
            for line in lines:
                if not self.of(device).within(line.start, line.start + line.length):
                    self.add(device, line.start, line.start + 1)

    def place(self, device: str, sector: int) -> int:
        """Where a sector stands among the kept ones of its device."""
        return self.of(device).rank(sector)

    def moved(self, device: str) -> Iterator[tuple[int, int, int]]:
        """Each span of kept sectors: its first one, how many they are, and where it begins now."""
        for first, end in self.of(device):
            yield first, end - first, self.place(device, first)

    def moved_blocks(self, device: str) -> Iterator[tuple[int, int, int, int]]:
        """Each span of kept blocks of a dust line: the line's number, the first block, how many
        they are, and the first one's number now.
        """
        for number, line in enumerate(self.lines[device], 1):
            start = self.place(device, line.start)
            for first, end in self.of(device).within(line.start, line.start + line.length):
                if line.block:
                    now = (self.place(device, first) - start) // line.block
                    count = -(-(end - first) // line.block)
                    yield number, (first - line.start) // line.block, count, now
