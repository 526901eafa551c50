"""trace_bios: the bios of a trace, the operations that they are of, which sectors reached no disk,
and who wrote those that were read.

A bio's pieces are the bios that its `map` made, in the order of their numbers, which is that of
their sectors. Where they have as many sectors as the bio, each piece's place in the bio is known.
Where they have fewer, it isn't: what was dropped may stand before, between or behind them. So then
only the number of sectors is told, never their place.
"""

from __future__ import annotations

from typing import Any, Iterator, NamedTuple, NoReturn

from dmlab_tools.fio_logs import Fault, Place
from dmlab_tools.trace_rows import LOST, Row, is_operation, made_by, number_of, word_of


class Operation(NamedTuple):
    """An operation of a log, with the lines of its start and its end, which is None where it
    wasn't answered.
    """

    log: int
    line: int
    action: str
    kind: str
    device: str
    sectors: tuple[int, int]
    bio: Bio
    start: Row
    end: Any
    result: str


class Lost(NamedTuple):
    """So many sectors of a range reached no disk. Where they are not all of it, nobody knows which
    they are.
    """

    first: int
    size: int
    lost: int


# As many runs of who wrote what a read found are told in words.
MOST_RUNS = 8


class Bio:
    """A bio: what it asks for, which is None until an event of it comes, and the lines that tell
    its course.
    """

    __slots__ = (
        *("number", "parent", "origin", "made", "kind", "device", "sectors", "until", "mapped"),
        *("released", "answered", "changed", "rest", "pieces"),
    )

    def __init__(
        self, number: int, parent: Bio | None, origin: tuple[int, int], made: Row
    ) -> None:
        self.number, self.parent, self.origin, self.made = number, parent, origin, made
        self.kind: Any = None
        self.device: Any = None
        self.sectors: Any = None
        self.until: int | None = None
        self.mapped: Row | None = None
        self.released: Row | None = None
        self.answered: Row | None = None
        self.changed, self.rest = False, ""
        self.pieces: list[Bio] = []

    def is_held(self) -> bool:
        """Whether a delay line holds it."""
        return self.until is not None and self.released is None

    def result(self) -> str:
        """How it was answered."""
        if self.answered is None:
            return "unanswered"
        return "EIO" if self.answered.happened == "EIO" else "ok"


class Bios:
    """The bios of a trace by their numbers, and the operations in the order of their lines."""

    def __init__(self, path: str, rows: list[Row]) -> None:
        self.path = path
        self.known: dict[int, Bio] = {}
        self.roots: list[Bio] = []
        self.busy: dict[int, Bio] = {}
        self.writers: set[tuple[int, int]] = set()
        takes = {
            "map": self.map,
            "serve": self.serve,
            "release": self.release,
            "finish": self.finish,
        }
        for row in rows:
            if is_operation(row):
                self.operate(row)
            elif word_of(row) in takes:
                takes[word_of(row)](row, self.named(row))

    def refuse(self, row: Row, why: str) -> NoReturn:
        """Refuses the line of an event. The head line is line 1."""
        raise Fault(Place(self.path, row.place + 1), why)

    def make(self, row: Row, number: int, parent: Bio | None, origin: tuple[int, int]) -> Bio:
        """A new bio, whose number is the next one."""
        if number != len(self.known) + 1:
            self.refuse(row, f"the next bio is {len(self.known) + 1}, and not {number}")
        self.known[number] = Bio(number, parent, origin, row)
        return self.known[number]

    def operate(self, row: Row) -> None:
        """A log's line makes a bio."""
        if row.log in self.busy:
            self.refuse(
                row,
                f"log {row.log} waits for the answer to its line {self.busy[row.log].origin[1]}",
            )
        bio = self.make(row, row.bio, None, (row.log, row.line))
        bio.kind, bio.device, bio.sectors = row.kind, row.device, row.sectors
        self.roots.append(bio)
        self.busy[row.log] = bio
        if row.kind in ("write", "trim"):
            self.writers.add(bio.origin)

    def named(self, row: Row) -> Bio:
        """The bio that an event names, which lives, and of which the line tells the same as the
        lines before.
        """
        bio = self.known.get(number_of(row))
        if bio is None or bio.answered:
            self.refuse(row, f"bio {row.bio} {'is answered already' if bio else 'was never made'}")
        bio.kind, bio.device, bio.sectors = (
            bio.kind or row.kind,
            bio.device or row.device,
            bio.sectors or row.sectors,
        )
        told = (row.parent, (row.log, row.line), row.kind, row.device, row.sectors)
        if told != (
            bio.parent and bio.parent.number,
            bio.origin,
            bio.kind,
            bio.device,
            bio.sectors,
        ):
            self.refuse(
                row,
                f"the lines before tell another parent, line, kind, device or sectors of bio {row.bio}",
            )
        return bio

    def map(self, row: Row, bio: Bio) -> None:
        """A mapped device makes the bios of a bio's pieces."""
        if not bio.device.startswith("dm") or bio.mapped or bio.is_held():
            self.refuse(
                row, f"bio {bio.number} can't be mapped: it is a disk's, mapped already, or held"
            )
        bio.mapped, (made, bio.rest) = row, made_by(row)
        for piece in made:
            bio.pieces.append(self.make(row, piece.number, bio, bio.origin))
            bio.pieces[-1].until, bio.pieces[-1].changed = piece.until, piece.changed

    def release(self, row: Row, bio: Bio) -> None:
        """A delay line lets go of a bio."""
        if not bio.is_held():
            self.refuse(row, f"bio {bio.number} isn't held")
        bio.released = row

    def serve(self, row: Row, bio: Bio) -> None:
        """A disk answers a bio."""
        if not bio.device.startswith("ram") or bio.is_held():
            self.refuse(row, f"bio {bio.number} can't be served: it is a mapped device's, or held")
        self.answer(row, bio)

    def finish(self, row: Row, bio: Bio) -> None:
        """A bio is answered, whose pieces all are."""
        if not bio.mapped or not all(piece.answered for piece in bio.pieces):
            self.refuse(
                row,
                f"bio {bio.number} can't be finished: it isn't mapped, or a piece of it isn't answered",
            )
        passed = sum(piece.sectors[1] for piece in bio.pieces)
        fewer = passed < bio.sectors[1] or not bio.pieces
        told = ("zeroes" if bio.kind == "read" else "dropped") if fewer else ""
        if passed > bio.sectors[1] or bio.rest not in ("failed", told):
            self.refuse(
                row,
                f"the pieces of bio {bio.number} have {passed} sectors, and its map tells another number",
            )
        self.answer(row, bio)

    def answer(self, row: Row, bio: Bio) -> None:
        """A bio is answered, and its log goes on if it is an operation's own."""
        bio.answered = row
        if bio.parent is None:
            self.check_answer(row, bio)
            del self.busy[bio.origin[0]]

    def check_answer(self, row: Row, bio: Bio) -> None:
        """Refuses an answer that is lost where nothing was dropped, or has a writer that wrote
        nothing before. Where a `zero` line dropped all that was dropped, nothing is lost.
        """
        if row.happened == LOST and not lost_of(bio):
            self.refuse(row, f"bio {bio.number} isn't lost, and its answer tells otherwise")
        for writer in {run.writer for run in row.writers or ()} - self.writers - {None}:
            self.refuse(row, f"line {writer[1]} of log {writer[0]} wrote nothing before")

    def operations(self) -> list[Operation]:
        """The operations of the logs, in the order of their lines in the trace."""
        return [operation_of(bio) for bio in self.roots]


def operation_of(bio: Bio) -> Operation:
    """The operation that made a bio."""
    log, line = bio.origin
    asked = (bio.made.happened, bio.kind, bio.device, bio.sectors)
    return Operation(log, line, *asked, bio, bio.made, bio.answered, bio.result())


def below(bio: Bio) -> Iterator[Bio]:
    """A bio and all that come from it."""
    yield bio
    for piece in bio.pieces:
        yield from below(piece)


def joined(found: list[Lost]) -> list[Lost]:
    """Ranges of which all sectors are lost, as one where they touch."""
    kept: list[Lost] = []
    for it in found:
        last = kept[-1] if kept else None
        if (
            last
            and last.lost == last.size
            and it.lost == it.size
            and last.first + last.size == it.first
        ):
            kept[-1] = Lost(last.first, last.size + it.size, last.size + it.size)
        else:
            kept.append(it)
    return kept


def lost_of(bio: Bio) -> list[Lost]:
    """The sectors of a write or trim that reached no disk though it was answered ok."""
    if bio.kind not in ("write", "trim") or bio.result() != "ok" or bio.device.startswith("ram"):
        return []
    first, count = bio.sectors
    passed = sum(piece.sectors[1] for piece in bio.pieces)
    found, place = [], first
    for piece in bio.pieces:
        found += [it._replace(first=it.first - piece.sectors[0] + place) for it in lost_of(piece)]
        place += piece.sectors[1]
    if passed == count:
        return joined(found)
    return [Lost(first, count, count - passed + sum(it.lost for it in found))]


def sector_text(first: int, count: int) -> str:
    """Some sectors, in words."""
    return f"sector {first}" if count == 1 else f"sectors {first} to {first + count - 1}"


def may_be_lost(bio: Bio) -> bool:
    """Whether what a bio dropped may be lost: not where the answer to its operation tells that
    nothing is, since only `zero` lines dropped it.
    """
    root = bio
    while root.parent:
        root = root.parent
    return root.kind == "flush" or not root.answered or root.answered.happened != "ok"


def lost_text(bio: Bio) -> str:
    """What reached no disk, in words."""
    if not may_be_lost(bio):
        return ""
    return ", ".join(
        sector_text(it.first, it.size)
        if it.lost == it.size
        else f"some of its sectors: {it.lost} of the {sector_text(it.first, it.size)}"
        for it in lost_of(bio)
    )


def writers_text(bio: Bio) -> str:
    """Who wrote what an operation read, in words, or nothing where it read nothing."""
    told, place = [], bio.sectors[0] if bio.sectors else 0
    for count, writer in bio.answered.writers or () if bio.answered else ():
        name = f"line {writer[1]} of log {writer[0]}" if writer else "nobody"
        told.append(f"{name} wrote {sector_text(place, count)}")
        place += count
    more = [f"and {len(told) - MOST_RUNS} more"] if len(told) > MOST_RUNS else []
    return ", ".join(told[:MOST_RUNS] + more)


def fate_of(bio: Bio) -> str:
    """What became of a bio, in a word: unanswered, EIO, lost, changed, zeroes or ok."""
    if bio.result() != "ok":
        return bio.result()
    rests = {it.rest for it in below(bio)}
    if "dropped" in rests and may_be_lost(bio):
        return "lost"
    if any(it.changed for it in below(bio)):
        return "changed"
    return "zeroes" if "zeroes" in rests else "ok"
