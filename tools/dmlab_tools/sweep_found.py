"""sweep_found: rows of findings and counts by line, as `dmlab sweep` writes them and as the
parts keep them, for tools/sweep.

The counts of a part stand in the order in which their findings came first, since the join has to
know it. The program writes those with the most seeds first.
"""

from __future__ import annotations

import re
from typing import Callable, Iterable, Iterator, NamedTuple, NoReturn

from dmlab_tools import tab_text
from dmlab_tools.fio_logs import Fault, Place
from dmlab_tools.sweep_parts import FINDINGS, Part, Seeds, count


class Finding(NamedTuple):
    """A row of a finding."""

    seed: int
    word: str
    line: bytes


class Key(NamedTuple):
    """What counts are of: a finding, and the log, its name and the line that had it."""

    word: str
    log: int
    name: bytes
    line: int


class Count(NamedTuple):
    """In how many seeds a line had a finding, and in which one first."""

    key: Key
    seeds: int
    first: int


NAMES = tuple(
    "finding seed log name line kind device sectors issued took at count by table_line target "
    "found wanted sync".split()
)
ROW_NAMES = tab_text.line_of(NAMES).encode()
COUNT_NAMES = tab_text.line_of("finding log name line seeds first percent".split()).encode()
WORDS = "|".join(FINDINGS).encode()
# rows and counts are kept byte by byte, as the program writes them, and looked at as bytes
ROW = re.compile(rb"(%s)\t([0-9]+)(?:\t[^\t\n]+){16}\n" % WORDS)
COUNT = re.compile(
    rb"(%s)\t([0-9]+)\t([!-~]+)\t([0-9]+)\t([1-9][0-9]*)\t([0-9]+)\t[0-9]+\.[0-9]{2}\n" % WORDS
)


def names_of(is_by_line: bool) -> bytes:
    """The line of column names."""
    return COUNT_NAMES if is_by_line else ROW_NAMES


def percent(many: int, of: int) -> str:
    """A share in percent, with two decimals, cut off."""
    return f"{many * 100 // of}.{many * 10000 // of % 100:02d}"


def line_of(it: Count, of: int) -> bytes:
    """The line of a count among so many seeds."""
    word, log, name, line = it.key
    columns = [word, log, name.decode(), line, it.seeds, it.first]
    return tab_text.line_of([*columns, percent(it.seeds, of)]).encode()


def refuse(place: Place, what: str, words: str, first: int, last: int) -> NoReturn:
    """Tells that a line isn't one of these findings and seeds."""
    raise Fault(place, f"no {what} of {words} of a seed from {first} to {last}")


def read_names(lines: Iterator[bytes], place: Place, is_by_line: bool) -> None:
    """Reads the line of column names, which has to be the first one."""
    if next(lines, b"") != names_of(is_by_line):
        raise Fault(place, "not the names of the columns")


def read_findings(
    lines: Iterable[bytes], place: Place, seeds: Seeds, words: str
) -> Iterator[Finding]:
    """The rows of findings of these words and seeds, in the order of the seeds. `place` is that of
    the names of the columns before them.
    """
    left, least = iter(lines), seeds.first
    read_names(left, place, False)
    for at, line in enumerate(left, place.line + 1):
        found = ROW.fullmatch(line)
        if not found or found[1].decode() not in words.split(","):
            refuse(place._replace(line=at), "finding", words, least, seeds.last)
        if not least <= int(found[2]) <= seeds.last:
            refuse(place._replace(line=at), "finding", words, least, seeds.last)
        least = int(found[2])
        yield Finding(least, found[1].decode(), line)


def count_in(line: bytes, seeds: Seeds, words: str) -> Count | None:
    """The count that a line tells of these words and seeds, or None."""
    found = COUNT.fullmatch(line)
    if not found or found[1].decode() not in words.split(","):
        return None
    key = Key(found[1].decode(), int(found[2]), found[3], int(found[4]))
    it = Count(key, int(found[5]), int(found[6]))
    is_within = seeds.first <= it.first and it.first + it.seeds - 1 <= seeds.last
    return it if is_within and line_of(it, count(seeds)) == line else None


def read_counts(lines: Iterable[bytes], place: Place, seeds: Seeds, words: str) -> list[Count]:
    """The counts of these words and seeds, each of another finding or line. `place` is that of the
    names of the columns before them.
    """
    left, counts = iter(lines), dict[Key, Count]()
    read_names(left, place, True)
    for at, line in enumerate(left, place.line + 1):
        it = count_in(line, seeds, words)
        if not it or it.key in counts:
            refuse(place._replace(line=at), "count", words, seeds.first, seeds.last)
        counts[it.key] = it
    return list(counts.values())


def lines_of_part(part: Part) -> list[bytes]:
    """The lines of a part behind its first one and before its last one."""
    with open(part.path, "rb") as file:
        file.readline()
        return file.readlines()[:-1]


def findings_of(part: Part) -> Iterator[Finding]:
    """The rows of findings of a part."""
    words = part.stamp.findings if part.stamp else ""
    yield from read_findings(lines_of_part(part), Place(part.path, 2), part.seeds, words)


def counts_of(part: Part) -> list[Count]:
    """The counts of a part, in the order in which their findings came first."""
    words = part.stamp.findings if part.stamp else ""
    counts = read_counts(lines_of_part(part), Place(part.path, 2), part.seeds, words)
    for at, (before, it) in enumerate(zip(counts, counts[1:]), 4):
        if before.first > it.first:
            raise Fault(Place(part.path, at), f"first in seed {it.first}, behind {before.first}")
    return counts


def came_first(counts: list[Count], seed_counts: Callable[[int], list[Count]]) -> list[Count]:
    """Counts as the program writes them, in the order in which their findings came first. It asks
    for the counts of one seed where several came first in it and have other numbers of seeds.
    """
    firsts = dict[int, list[Count]]()
    for it in counts:
        firsts.setdefault(it.first, []).append(it)
    ordered = list[Count]()
    for first, some in sorted(firsts.items()):
        if len({it.seeds for it in some}) > 1:
            order = [it.key for it in seed_counts(first)]
            some = sorted(some, key=lambda it: order.index(it.key))
        ordered += some
    return ordered


def summed(parts: Iterable[list[Count]]) -> list[Count]:
    """The counts of all parts: the most seeds first, and of equals the one that came first."""
    sums = dict[Key, Count]()
    for it in (it for part in parts for it in part):
        before = sums.get(it.key)
        sums[it.key] = before._replace(seeds=before.seeds + it.seeds) if before else it
    return sorted(sums.values(), key=lambda it: -it.seeds)
