"""finding_bios: the operations of a run and their bios, with the bytes of their sectors, for
tests/findings.py.
"""

from __future__ import annotations

import dataclasses
import re
from typing import Iterator, List, NamedTuple, Optional

from finding_tables import Culprit
from small_bundles import Origin

ZEROES = bytes(512)


class Stored(NamedTuple):
    """Who wrote a sector of a disk: the operation, its sector, and the line that made the sector
    another one on its way, if one did.
    """

    by: Operation
    sector: int
    spoiler: Culprit | None


class Sector(NamedTuple):
    """A sector of an answer: its bytes, who wrote it, whether a zero line answered it, and which
    line replaced a byte of it last on its way back, if even by itself.
    """

    data: bytes
    writer: Stored | None = None
    is_zero: bool = False
    changed: Culprit | None = None


@dataclasses.dataclass
class Operation:
    """An operation of a log, and what came of it. `dropped`, `spoiled` and `zeroes` tell its
    sectors, counted from its first; places are those of the trace's rows.
    """

    origin: Origin
    kind: str
    device: str
    first: int
    count: int
    issued: int
    moment: int
    answered: int | None = None
    took: int = 0
    is_ok: bool = False
    dropped: dict[int, Culprit] = dataclasses.field(default_factory=dict)
    spoiled: dict[int, Culprit] = dataclasses.field(default_factory=dict)
    zeroes: set[int] = dataclasses.field(default_factory=set)
    answer: list[Sector] = dataclasses.field(default_factory=list)
    # of a read by its sectors: the write or trim that it has to find at least
    claims: dict[int, Operation] = dataclasses.field(default_factory=dict)
    # of a sync: the lost sectors of its device with the operations that lost them
    stood: dict[int, Operation] = dataclasses.field(default_factory=dict)

    @property
    def fill(self) -> bytes:
        """A sector that it writes."""
        log, line = self.origin
        return bytes([(16 * log + line) % 256 if self.kind == "write" else 0]) * 512

    @property
    def sectors(self) -> range:
        """The sectors of its device."""
        return range(self.first, self.first + self.count)


@dataclasses.dataclass
class Bio:
    """A bio: its operation and its place there, the bio that it is a piece of and its place there,
    the line that made it, the bytes that this line changes, and its bytes.
    """

    operation: Operation
    device: str
    first: int
    count: int
    base: int = 0
    parent: Optional[Bio] = None
    at: int = 0
    line: Culprit | None = None
    marks: list[tuple[int, int]] = dataclasses.field(default_factory=list)
    data: List[bytes] = dataclasses.field(default_factory=list)
    answer: List[Sector] = dataclasses.field(default_factory=list)

    def is_right(self, sector: int) -> bool:
        """Whether a sector of the operation is in this bio as the log wrote it."""
        return self.data[sector - self.base] == self.operation.fill

    def spoiler(self, sector: int) -> Culprit | None:
        """The line that made this sector another one, if the bio's isn't right: up from here, the
        first whose bio still had it right.
        """
        here: Bio = self
        if self.is_right(sector):
            return None
        while here.parent and not here.parent.is_right(sector):
            here = here.parent
        return here.line


def changed_at(data: bytes, marks: list[tuple[int, int]], sector: int) -> bytes:
    """A sector of a bio whose bytes at these places become others."""
    found = bytearray(data)
    for place, value in marks:
        if place // 512 == sector:
            found[place % 512] = value
    return bytes(found)


def made_bios(happened: str) -> Iterator[tuple[int, list[tuple[int, int]]]]:
    """The bios that a `map` made, each with the bytes that are changed."""
    for number, marks in re.findall(r"(?:^|,)(\d+)(?:@\d+)?((?:!\d+=\d+)*)", happened):
        pairs = re.findall(r"!(\d+)=(\d+)", marks)
        yield int(number), [(int(place), int(value)) for place, value in pairs]
