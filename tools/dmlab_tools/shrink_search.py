"""shrink_search: goes from a bundle to smaller ones, as long as a test holds on them, for
tools/shrink.

Whole parts go first, then lines, then numbers, and all of it again until nothing more can go.
Lines are left out in chunks, at first all at once, then halves of those, and each alone at last;
the last lines first, since later lines lean on the ones before. A number of sectors gets as small
as can be, a time is halved as long as it may.
"""

from __future__ import annotations

import itertools
import sys
from typing import Any, Callable, Iterable, Iterator, Sequence

from dmlab_tools.progress import Progress
from dmlab_tools.shrink_bundle import (
    RANGES,
    Part,
    Spot,
    count_lines,
    emptied,
    grown,
    is_empty_log,
    is_row,
    line_at,
    renumbered,
)
from dmlab_tools.shrink_bundle import spots, text_of, without, without_parts
from dmlab_tools.shrink_judge import Judge
from dmlab_tools.shrink_numbers import (
    Knob,
    knobs,
    merged_waits,
    moved,
    pairs,
    plain,
    straight,
    with_less_features,
    with_number,
)
from dmlab_tools.shrink_numbers import with_range, without_row
from dmlab_tools.shrink_pairs import alike_ranges, created_loaded, earlier_blocks, joined_logs
from dmlab_tools.shrink_pairs import message_knobs, moved_down, shorter_times, smaller_blocks


def halves(number: int) -> Iterator[int]:
    """A number, its half, and so on down to 1."""
    while number > 0:
        yield number
        number //= 2


class Search:
    """The smallest bundle so far, and the seed under which the test holds on it."""

    def __init__(self, judge: Judge, parts: list[Part], seed: int) -> None:
        self.judge, self.parts, self.seed, self.text = judge, parts, seed, text_of(parts)
        self.progress = Progress("shrink", "tests")

    def take(self, parts: list[Part]) -> bool:
        """Goes on to other parts if the test holds on them, and answers whether it does."""
        return self.take_first([parts]) is not None

    def take_first(self, candidates: Iterable[list[Part]]) -> int | None:
        """Goes on to the first of these parts on which the test holds, and answers its place. As
        many are asked about at once as there may be jobs.
        """
        left, at = iter(candidates), 0
        while some := list(itertools.islice(left, self.judge.jobs)):
            texts = list(map(text_of, some))
            asked = [text for text in texts if text != self.text]
            seeds = dict(zip(asked, self.judge.seeds_of(asked, self.seed)))
            self.show()
            for place, (parts, text) in enumerate(zip(some, texts), at):
                if (seed := seeds.get(text)) is not None:
                    self.parts, self.text, self.seed = parts, text, seed
                    return place
            at += len(some)
        return None

    def show(self) -> None:
        """Shows how far the search is."""
        self.progress.show(
            self.judge.counts["tests"],
            lambda: f"{count_lines(self.text)} lines, seed {self.seed}",
        )

    def sweep(
        self, units: Sequence[Any], change: Callable[[list[Part], list[Any]], list[Part]]
    ) -> None:
        """Leaves out units in chunks, which are halved, from the last one on."""
        left, size = list(units), len(units)
        while size:
            end = len(left)
            while end > 0:
                end = self.leave_out(left, end, size, change)
            size //= 2

    def leave_out(
        self,
        left: list[Any],
        end: int,
        size: int,
        change: Callable[[list[Part], list[Any]], list[Part]],
    ) -> int:
        """Leaves out the first chunk that may go, from a place on downwards, and answers where the
        next one ends.
        """
        ends = range(end, 0, -size)
        chunks = (slice(max(0, end - size), end) for end in ends)
        at = self.take_first(change(self.parts, left[chunk]) for chunk in chunks)
        if at is None:
            return 0
        first = max(0, ends[at] - size)
        del left[first : ends[at]]
        return first

    def run(self, renumber: bool) -> bool:
        """Shrinks the bundle, and answers whether it came to the end or was interrupted."""
        try:
            self.shrink()
            while renumber and self.renumber():
                self.shrink()
        except KeyboardInterrupt:
            self.progress.wipe()
            print("shrink: interrupted: more may go", file=sys.stderr)
            return False
        finally:
            self.progress.wipe()
        return True

    def shrink(self) -> None:
        """Goes on until nothing more can go."""
        before = None
        while before != self.text:
            before = self.text
            self.whole_parts()
            self.lines()
            if before == self.text:
                self.numbers()

    def places(self, *kinds: str) -> list[int]:
        """Where the parts of these kinds stand."""
        return [at for at, part in enumerate(self.parts) if part.kind in kinds]

    def whole_parts(self) -> None:
        """Leaves out histories and what stands before the headings, lines of whole logs, and
        tables.
        """
        self.sweep(self.places("top", "history"), without_parts)
        self.sweep([at for at in self.places("log") if not is_empty_log(self.parts[at])], emptied)
        self.sweep(self.places("table"), without_parts)
        for at in reversed(self.places("log")):
            if not is_empty_log(self.parts[at]) or not self.take(without_parts(self.parts, [at])):
                break

    def lines(self) -> None:
        """Leaves out lines: of logs, script and tables, pairs that go together, and waits that
        others make good.
        """
        for kind in ("log", "script", "top", "history"):
            self.sweep(spots(self.parts, kind), without)
        for at in self.places("table"):
            rows = [spot for spot in spots(self.parts, "table") if spot.part == at]
            self.sweep(rows, without)
            self.sweep([spot for spot in rows if is_row(self.parts[at].lines[spot.line])], grown)
        self.sweep_each(list(pairs(self.parts)))
        self.each(merged_waits)

    def numbers(self) -> None:
        """Makes targets plainer, ways through devices straighter, and numbers smaller."""
        plainer = (plain, with_less_features, created_loaded, straight, moved_down, without_row)
        for change in (*plainer, moved, smaller_blocks, earlier_blocks, shorter_times):
            self.each(change)
        for at in reversed(spots(self.parts, "log")):
            if line_at(self.parts, at)[1] in RANGES:
                self.narrow(at)
        self.each(alike_ranges)
        for knob in [*knobs(self.parts), *message_knobs(self.parts)]:
            self.lower(knob)

    def sweep_each(self, groups: list[list[Spot]]) -> None:
        """Leaves out groups of lines, one after the other, from the last one on."""
        end = len(groups)
        while end > 0:
            at = self.take_first(without(self.parts, it) for it in reversed(groups[:end]))
            end = 0 if at is None else end - at - 1

    def each(self, change: Callable[[list[Part]], Iterable[list[Part]]]) -> None:
        """Takes what a change has to offer, and asks again, until it has nothing that holds."""
        while self.take_first(change(self.parts)) is not None:
            pass

    def lower(self, knob: Knob) -> None:
        """Makes a number as small as can be: by steps that are halved, or, a time, by halves of
        itself.
        """
        value = int(line_at(self.parts, knob.word)[knob.word.word])
        gap = value - knob.least
        if knob.is_time and gap > 0 and not self.take(with_number(self.parts, knob, knob.least)):
            value = self.halve(knob, value)
            gap = (value - knob.least) // 2
        elif knob.is_time:
            gap = 0
        while gap > 0:
            gaps = list(halves(gap))
            at = self.take_first(with_number(self.parts, knob, value - gap) for gap in gaps)
            gap = 0 if at is None else gaps[at]
            value -= gap
            gap = min(gap, value - knob.least)

    def halve(self, knob: Knob, value: int) -> int:
        """Halves a time as long as the test holds, and answers what it is then."""
        while value // 2 > knob.least and self.take(with_number(self.parts, knob, value // 2)):
            value //= 2
        return value

    def narrow(self, spot: Spot) -> None:
        """Makes the range of a log's line narrower, from its end and from its beginning, and then
        begin earlier.
        """
        first, count = [int(word) // 512 for word in line_at(self.parts, spot)[2:]]
        gap = count - 1
        while gap > 0:
            ways = [(at, gap) for gap in halves(gap) for at in (first, first + gap)]
            at = self.take_first(
                with_range(self.parts, spot, start, count - gap) for start, gap in ways
            )
            first, gap = (first, 0) if at is None else ways[at]
            count -= gap
            gap = min(gap, count - 1)
        self.slide(spot, first, count)

    def slide(self, spot: Spot, first: int, count: int) -> None:
        """Makes the range of a log's line begin earlier, by steps that are halved."""
        gap = first
        while gap > 0:
            gaps = list(halves(gap))
            at = self.take_first(with_range(self.parts, spot, first - gap, count) for gap in gaps)
            gap = 0 if at is None else gaps[at]
            first -= gap
            gap = min(gap, first)

    def renumber(self) -> bool:
        """Deletes blank lines and empty logs of the parts where the test holds with the other
        numbers, too, and makes two logs one.
        """
        before = self.text
        self.each(joined_logs)
        units = [
            at for at in self.places("script", "log") if renumbered(self.parts, [at]) != self.parts
        ]
        self.sweep(units, renumbered)
        return self.text != before
