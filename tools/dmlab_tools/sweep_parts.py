"""sweep_parts: the files of rows that tools/sweep keeps in a folder, and the ranges of seeds that
they have.

A file has a first line that tells what its rows are of, a row for each of its seeds, and the last
line `# end`. It gets its name once all of it is written.
"""

from __future__ import annotations

import array
import os
import re
from typing import BinaryIO, Iterable, Iterator, Match, NamedTuple

from dmlab_tools.fio_logs import Fault, Place


class Seeds(NamedTuple):
    """A range of seeds."""

    first: int
    last: int


class Stamp(NamedTuple):
    """What rows depend on beside their seeds: two digests, yes or no, which findings stand in their
    place, or none, and whether these are counted by line, yes or no.
    """

    bundle: str
    program: str
    prompt: str
    findings: str
    by_line: str


class Part(NamedTuple):
    """A file of rows. Its stamp is None where it was cut off in its first line."""

    path: str
    seeds: Seeds
    stamp: Stamp | None
    is_whole: bool


class Row(NamedTuple):
    """A row: its seed and its report's digest."""

    seed: int
    digest: bytes


# The words of findings, in their order, and the word for none of them.
FINDINGS, NONE = ("eio", "lost", "corrupt", "stale", "misplaced", "broken-sync"), "none"

NAME = re.compile(r"([0-9]+)-([0-9]+)\.rows")
HEAD = re.compile(
    r"# bundle ([0-9a-f]{64}) program ([0-9a-f]{64}) prompt (yes|no)"
    r"(?: findings ([a-z,-]+)( by line)?)? seeds ([0-9]+)\.\.([0-9]+)\n"
)
ROW = re.compile(
    rb"seed ([0-9]+) ([0-9a-f]{16}) eio=(?:0|[1-9][0-9]*) steps=[0-9]+ clock=[0-9]+ now=[0-9]+\n"
)
END = b"# end\n"
LONGEST_HEAD = 300


def name(seeds: Seeds) -> str:
    """A range of seeds as words have it."""
    return f"{seeds.first}..{seeds.last}"


def count(seeds: Seeds) -> int:
    """How many seeds a range has."""
    return seeds.last - seeds.first + 1


def overlap(some: Seeds, others: Seeds) -> bool:
    """Whether two ranges have a seed in common."""
    return some.first <= others.last and others.first <= some.last


def share(seeds: Seeds, part: int, of: int) -> Seeds:
    """The part-th of so many equal shares of a range, counted from 1."""
    first = [seeds.first + count(seeds) * at // of for at in (part - 1, part)]
    return Seeds(first[0], first[1] - 1)


def missing(wanted: Seeds, held: Iterable[Seeds]) -> Iterator[Seeds]:
    """What a range has that no held range has."""
    first = wanted.first
    for seeds in sorted(held):
        if overlap(seeds, wanted):
            if seeds.first > first:
                yield Seeds(first, seeds.first - 1)
            first = max(first, seeds.last + 1)
    if first <= wanted.last:
        yield Seeds(first, wanted.last)


def chunks(seeds: Seeds, size: int) -> Iterator[Seeds]:
    """A range, split at the multiples of a size."""
    first = seeds.first
    while first <= seeds.last:
        last = min(seeds.last, first - first % size + size - 1)
        yield Seeds(first, last)
        first = last + 1


def head_of(stamp: Stamp, seeds: Seeds) -> str:
    """The first line of a file of rows."""
    findings = f" findings {stamp.findings}" * (stamp.findings != NONE)
    by_line = " by line" * (stamp.by_line == "yes")
    what = f"bundle {stamp.bundle} program {stamp.program} prompt {stamp.prompt}"
    return f"# {what}{findings}{by_line} seeds {name(seeds)}\n"


def read_part(path: str, seeds: Seeds) -> Part:
    """A file of rows by its first and its last line. The seeds are those of its name."""
    with open(path, "rb") as file:
        head = file.readline(LONGEST_HEAD).decode("ascii", "replace")
        file.seek(max(0, os.fstat(file.fileno()).st_size - len(END) - 1))
        is_whole = file.read() == b"\n" + END
    found = HEAD.fullmatch(head)
    if not found and (is_whole or head.endswith("\n") or len(head) == LONGEST_HEAD):
        raise Fault(Place(path, 1), "not the first line of rows that tools/sweep wrote")
    if found and Seeds(int(found[6]), int(found[7])) != seeds:
        raise Fault(
            Place(path, 1),
            f"rows of the seeds {found[6]}..{found[7]}, and the file's name says {name(seeds)}",
        )
    return Part(path, seeds, stamp_of(found) if found else None, is_whole)


def stamp_of(found: Match[str]) -> Stamp:
    """What a first line tells."""
    by_line = "yes" if found[5] else "no"
    return Stamp(found[1], found[2], found[3], found[4] or NONE, by_line)


def check_stamp(part: Part, stamp: Stamp | None) -> None:
    """Refuses a part whose rows are of something else."""
    if not part.stamp or not stamp:
        return
    for kind, has, wanted in zip(Stamp._fields, part.stamp, stamp):
        if has != wanted:
            kind = kind.replace("_", "-")
            raise Fault(Place(part.path, 1), f"rows of {kind} {has}, and not of {kind} {wanted}")


def read_parts(folder: str, stamp: Stamp | None = None) -> list[Part]:
    """The files of rows of a folder, by their seeds. All have to be of one stamp, which may be
    told.
    """
    found = [NAME.fullmatch(file) for file in os.listdir(folder)]
    ranges = sorted((Seeds(int(it[1]), int(it[2])), it[0]) for it in found if it)
    parts = [read_part(os.path.join(folder, file), seeds) for seeds, file in ranges]
    stamp = stamp or next((part.stamp for part in parts if part.stamp), None)
    for part in parts:
        check_stamp(part, stamp)
    return parts


def read_rows(file: BinaryIO, place: Place, seeds: Seeds) -> Iterator[Row]:
    """The rows of these seeds, one for each, in their order. `place` is that of the first one."""
    for seed in range(seeds.first, seeds.last + 1):
        line = file.readline()
        found = ROW.fullmatch(line)
        if not found or int(found[1]) != seed:
            raise Fault(
                place._replace(line=place.line + seed - seeds.first), f"no row of seed {seed}"
            )
        yield Row(seed, found[2])


def rows_of(part: Part) -> Iterator[Row]:
    """The rows of a part, behind which nothing but its last line may stand."""
    with open(part.path, "rb") as file:
        file.readline()
        yield from read_rows(file, Place(part.path, 2), part.seeds)
        if file.read(len(END) + 1) != END:
            raise Fault(Place(part.path, count(part.seeds) + 2), "not the line `# end`")


class Tally:
    """The digests in the order in which they were met, each with its first seed and how many seeds
    have it.
    """

    def __init__(self) -> None:
        self.places: dict[bytes, int] = {}
        self.first, self.many = array.array("Q"), array.array("Q")

    def add(self, row: Row) -> None:
        """Counts a row."""
        place = self.places.setdefault(row.digest, len(self.first))
        if place == len(self.first):
            self.first.append(row.seed)
            self.many.append(0)
        self.many[place] += 1

    def lines(self) -> Iterator[bytes]:
        """A line for each digest."""
        for digest, first, many in zip(self.places, self.first, self.many):
            yield f"digest {digest.decode()} first={first} count={many}\n".encode()
