"""compact_spans: sets of sectors, kept as the spans that they are made of, for tools/bundle."""

from __future__ import annotations

from bisect import bisect_left, bisect_right
from typing import Iterator


class Spans:
    """A set of sectors as spans of a first sector and the one behind the last, in rising order,
    with a gap between each two.
    """

    def __init__(self) -> None:
        self.firsts: list[int] = []
        self.ends: list[int] = []
        self.behind: list[int] | None = None

    def __iter__(self) -> Iterator[tuple[int, int]]:
        return zip(self.firsts, self.ends)

    def add(self, first: int, end: int) -> list[tuple[int, int]]:
        """Adds the sectors from `first` on and before `end`, and answers the spans of those that
        are new.
        """
        low, high = bisect_left(self.ends, first), bisect_right(self.firsts, end)
        if first >= end or low < high and self.firsts[low] <= first and end <= self.ends[low]:
            return []
        new, at = [], first
        for there, gone in zip(self.firsts[low:high], self.ends[low:high]):
            if at < there:
                new.append((at, there))
            at = gone
        if at < end:
            new.append((at, end))
        if low < high:
            first, end = min(first, self.firsts[low]), max(end, self.ends[high - 1])
        self.firsts[low:high], self.ends[low:high] = [first], [end]
        self.behind = None
        return new

    def within(self, first: int, end: int) -> list[tuple[int, int]]:
        """The spans of the set's sectors from `first` on and before `end`."""
        low, high = bisect_right(self.ends, first), bisect_left(self.firsts, end)
        found = zip(self.firsts[low:high], self.ends[low:high])
        return [(max(it, first), min(behind, end)) for it, behind in found]

    def rank(self, sector: int) -> int:
        """How many sectors of the set stand before this one."""
        if self.behind is None:
            self.behind = [0]
            for first, end in self:
                self.behind.append(self.behind[-1] + end - first)
        at = bisect_right(self.firsts, sector)
        over = max(0, self.ends[at - 1] - sector) if at else 0
        return self.behind[at] - over

    def size(self) -> int:
        """How many sectors the set has."""
        return self.rank(self.ends[-1]) if self.ends else 0
