"""timeline_layout: where the events and bars of a timeline lie, for tools/timeline.

There are two ways to lay out a run, and each place is told in both, as shares of the whole width:
by moment, where a run of the clock has the width of its time, and each event a little of its own,
so that events of one moment don't lie on one another; and by event, where each event has the same
width.
"""

from __future__ import annotations

import bisect
import heapq
from typing import Iterable, Iterator, NamedTuple, Sequence, Tuple, TypeVar


class Bar(NamedTuple):
    """A thing that lasts from an event to an event, both counted from 0 in the trace: its class,
    the places of its events, and a remark.
    """

    first: int
    last: int
    look: str
    places: tuple[int, ...]
    remark: str


class Box(NamedTuple):
    """Where something lies, by moment and by event: two pairs of a left and a right edge."""

    moment: tuple[float, float]
    event: tuple[float, float]


# Where a shade lies, and what it is.
Shade = Tuple[Box, Bar]
# What runs are of.
T = TypeVar("T")


# What part of the width the events have in the layout by moment, where the clock goes on at all.
SHARE = 0.25
CELLS = 1000
# What matters more stands further behind.
LOOKS = (
    *("step", "ok", "zeroes", "changed", "unanswered", "held", "EIO", "lost"),
    *("corrupt", "misplaced", "stale", "broken-sync"),
)


class Axis:
    """The places of some events of a trace, from the event `first` to the one before `end`."""

    def __init__(self, clocks: list[int], first: int, end: int) -> None:
        self.first, self.end, self.clocks = first, end, clocks[first:end]
        self.count, self.span = end - first, self.clocks[-1] - self.clocks[0]
        self.share = SHARE if self.span else 1.0

    def at(self, clock: int, events: int) -> tuple[float, float]:
        """The place of a moment before which so many events came."""
        passed = (clock - self.clocks[0]) / self.span if self.span else 0.0
        return passed * (1 - self.share) + events / self.count * self.share, events / self.count

    def left(self, event: int) -> tuple[float, float]:
        """The left edge of an event, counted from 0 in the trace."""
        event = min(max(event, self.first), self.end - 1) - self.first
        return self.at(self.clocks[event], event)

    def right(self, event: int) -> tuple[float, float]:
        """The right edge of an event."""
        event = min(max(event, self.first), self.end - 1) - self.first
        return self.at(self.clocks[event], event + 1)

    def before(self, clock: int) -> tuple[float, float]:
        """The place of a moment: before the first event that comes then or later."""
        events = bisect.bisect_left(self.clocks, clock)
        return self.at(min(max(clock, self.clocks[0]), self.clocks[-1]), events)

    def box(self, first: int, last: int) -> Box:
        """Where something lies that lasts from an event to an event."""
        return Box(*zip(self.left(first), self.right(last)))

    def shown(self, bars: Iterable[Bar]) -> list[Bar]:
        """The bars of which some event is among those of the axis."""
        return [bar for bar in bars if bar.last >= self.first and bar.first < self.end]


def lanes_of(bars: Iterable[Bar], most: int) -> list[list[Bar]] | None:
    """The bars of lanes, in which no two lie on one another, or None where more lanes are wanted
    than may be.
    """
    lanes: list[list[Bar]] = []
    free: list[int] = []
    busy: list[tuple[int, int]] = []
    for bar in sorted(bars):
        while busy and busy[0][0] < bar.first:
            heapq.heappush(free, heapq.heappop(busy)[1])
        if not free:
            free.append(len(lanes))
            lanes.append([])
        lane = heapq.heappop(free)
        lanes[lane].append(bar)
        heapq.heappush(busy, (bar.last, lane))
        if len(lanes) > most:
            return None
    return lanes


def depths(axis: Axis, bars: Iterable[Bar]) -> list[tuple[int, int]]:
    """How many bars lie over each event, and how many over the time between it and the next one."""
    begun, ended = [0] * (axis.count + 1), [0] * (axis.count + 1)
    for bar in bars:
        begun[max(bar.first, axis.first) - axis.first] += 1
        ended[min(bar.last, axis.end - 1) - axis.first] += 1
    now, found = 0, []
    for event in range(axis.count):
        now += begun[event]
        found.append((now, now - ended[event]))
        now -= ended[event]
    return found


def cells(left: float, right: float) -> range:
    """The cells that something lies in."""
    return range(min(int(left * CELLS), CELLS - 1), min(int(right * CELLS - 1e-9), CELLS - 1) + 1)


def heights(axis: Axis, bars: Iterable[Bar], way: int) -> list[int]:
    """For each cell of a layout the greatest number of bars that lie over one another in it."""
    tops = [0] * CELLS
    edges = [(axis.left(at)[way], axis.right(at)[way]) for at in range(axis.first, axis.end)]
    edges.append((1.0, 1.0))
    for at, (during, behind) in enumerate(depths(axis, bars)):
        for depth, spot in (
            (during, cells(*edges[at])),
            (behind, cells(edges[at][1], edges[at + 1][0])),
        ):
            for cell in spot if depth else ():
                tops[cell] = max(tops[cell], depth)
    return tops


def worst(axis: Axis, bars: Iterable[Bar], way: int) -> list[str | None]:
    """For each cell of a layout the look that matters most among the bars in it, or None."""
    found = [-1] * CELLS
    for bar in bars:
        rank = LOOKS.index(bar.look)
        for cell in cells(*axis.box(bar.first, bar.last)[way]):
            found[cell] = max(found[cell], rank)
    return [LOOKS[rank] if rank >= 0 else None for rank in found]


def runs(items: Sequence[T]) -> Iterator[tuple[T, int, int]]:
    """Items as runs of equal ones: each item, its first place, and how many there are."""
    first = 0
    for at in range(1, len(items) + 1):
        if at == len(items) or items[at] != items[first]:
            yield items[first], first, at - first
            first = at
