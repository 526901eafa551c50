"""bundle_disks: the memory disks of a bundle, for tools/bundle."""

from __future__ import annotations

import re
from typing import Callable, Iterable

from dmlab_tools.bundle_rows import numbered
from dmlab_tools.fio_logs import Fault, Place

MOST_SECTORS, MOST_DISKS = 65536, 16
FEWER = "--compact or --only DEVICE leaves out others"


class Disks:
    """The memory disks: what each stands for, the size it is told, and how far it is reached."""

    def __init__(
        self, told: Iterable[tuple[str, int, int | None]], known: Callable[[str], str]
    ) -> None:
        self.known = known
        self.number_of: dict[str, int] = {}
        self.words: dict[int, list[str]] = {}
        self.told: dict[int, int] = {}
        self.reached: dict[int, tuple[int, Place]] = {}
        for word, number, count in told:
            self.number_of[known(word)] = number
            if count:
                self.told[number] = count

    def is_told(self, word: str) -> bool:
        """Whether a word is a disk's that is known."""
        return self.known(word) in self.number_of

    def number(self, place: Place, word: str) -> int:
        """The number of the memory disk that stands for a disk: its own if it is one, or the least
        free one.
        """
        known = self.known(word)
        if known not in self.number_of:
            self.number_of[known] = self.new_number(place, word)
        words = self.words.setdefault(self.number_of[known], [])
        if word not in words:
            words.append(word)
        if len(self.words) > MOST_DISKS:
            raise Fault(
                place,
                f"dmlab has {MOST_DISKS} disks, and {word} is one more: {FEWER}",
            )
        return self.number_of[known]

    def new_number(self, place: Place, word: str) -> int:
        """The number for a disk that has none."""
        own = re.fullmatch("1:([0-9]+)", numbered(word))
        taken = self.number_of.values()
        number = int(own[1]) if own else min(set(range(256)).difference(taken), default=256)
        if number > 255:
            raise Fault(place, f"dmlab has no disk of the number {number}")
        if number in taken:
            raise Fault(
                place,
                f"/dev/ram{number} is another disk already: say by --disk which one is {word}",
            )
        return number

    def reach(self, place: Place, number: int, end: int) -> None:
        """A line reaches to a sector of a disk."""
        told = self.told.get(number, end)
        if end > told:
            raise Fault(
                place,
                f"the line reaches to sector {end} of /dev/ram{number}, to which --disk gives "
                f"{told}",
            )
        if number not in self.reached or end > self.reached[number][0]:
            self.reached[number] = (end, place)

    def sizes(self) -> dict[int, int]:
        """The size of each disk that is referred to."""
        sizes = {
            number: self.told.get(number, self.reached.get(number, (1,))[0])
            for number in sorted(self.words)
        }
        total = sum(sizes.values())
        if total > MOST_SECTORS:
            places = self.reached.values()
            place = max(places, key=lambda it: it[0], default=(0, Place("--disk", 0)))[1]
            raise Fault(
                place,
                f"all disks have {total} sectors, dmlab has {MOST_SECTORS}: this line reaches "
                "furthest, and --compact keeps only the sectors that logs touch",
            )
        return sizes
