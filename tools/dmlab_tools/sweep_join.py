"""sweep_join: makes one sweep of the files of rows in a folder, for tools/sweep."""

from __future__ import annotations

import collections
import sys
from typing import Iterator

from dmlab_tools.fio_logs import Fault, Place
from dmlab_tools.sweep_found import counts_of, findings_of, line_of, names_of, summed
from dmlab_tools.sweep_parts import (
    NONE,
    Part,
    Seeds,
    Tally,
    count,
    missing,
    name,
    overlap,
    read_parts,
    rows_of,
)

NO_EIO = b" eio=0 "


def check_parts(parts: list[Part]) -> None:
    """Refuses a part that was cut off, and one that has seeds of the one before."""
    for part in parts:
        if not part.is_whole:
            raise Fault(
                Place(part.path, 0),
                "cut off: its last line isn't `# end`; the sweep has to be run again",
            )
    for before, part in zip(parts, parts[1:]):
        if overlap(before.seeds, part.seeds):
            raise Fault(Place(part.path, 0), f"seeds that {before.path} has, too")


def tell_gaps(folder: str, gaps: list[Seeds]) -> None:
    """A line for each range of seeds that is missing."""
    for gap in gaps:
        print(f"sweep: {folder}: no rows of the seeds {name(gap)}", file=sys.stderr)


def tally_of(parts: list[Part], wanted: Seeds) -> Tally:
    """The digests of the wanted seeds. Each line of the parts is read, and has to be its seed's
    row.
    """
    tally = Tally()
    for part in parts:
        for row in rows_of(part):
            if wanted.first <= row.seed <= wanted.last:
                tally.add(row)
    return tally


def lines_of(part: Part, wanted: Seeds, is_eio: bool) -> Iterator[bytes]:
    """The lines of the wanted seeds or, where this is asked, of those with an answer EIO."""
    with open(part.path, "rb") as file:
        file.readline()
        for seed, line in zip(range(part.seeds.first, part.seeds.last + 1), file):
            if wanted.first <= seed <= wanted.last and not (is_eio and NO_EIO in line):
                yield line


def write_rows(parts: list[Part], wanted: Seeds, is_eio: bool) -> None:
    """Writes the rows, and the digests behind them or, where this is asked, only the rows with an
    answer EIO.
    """
    # this reads all of them before anything is written
    tally = tally_of(parts, wanted)
    for part in parts:
        sys.stdout.buffer.writelines(lines_of(part, wanted, is_eio))
    if not is_eio:
        sys.stdout.buffer.writelines(tally.lines())


def write_findings(parts: list[Part], wanted: Seeds, is_eio: bool) -> bool:
    """Writes the findings or, where this is asked, only those of an answer EIO. Answers whether
    there are any.
    """
    # this reads all of them before anything is written
    for part in parts:
        collections.deque(findings_of(part), 0)
    sys.stdout.buffer.write(names_of(False))
    are_any = False
    for it in (it for part in parts for it in findings_of(part)):
        if wanted.first <= it.seed <= wanted.last and (it.word == "eio" or not is_eio):
            sys.stdout.buffer.write(it.line)
            are_any = True
    return are_any


def write_counts(parts: list[Part], wanted: Seeds, is_eio: bool) -> bool:
    """Writes the counts by line or, where this is asked, only those of an answer EIO. Answers
    whether there are any.
    """
    for part in parts:
        if not wanted.first <= part.seeds.first <= part.seeds.last <= wanted.last:
            fault = f"its counts are not of the seeds {name(wanted)} alone"
            raise Fault(Place(part.path, 0), fault)
    counts = [it for it in summed(map(counts_of, parts)) if it.key.word == "eio" or not is_eio]
    sys.stdout.buffer.write(names_of(True))
    sys.stdout.buffer.writelines(line_of(it, count(wanted)) for it in counts)
    return bool(counts)


def write_all(parts: list[Part], wanted: Seeds, is_eio: bool) -> bool:
    """Writes what the parts have. Answers whether there are findings."""
    stamp = parts[0].stamp
    parts = [part for part in parts if overlap(part.seeds, wanted)]
    if not stamp or stamp.findings == NONE:
        write_rows(parts, wanted, is_eio)
        return False
    write = write_counts if stamp.by_line == "yes" else write_findings
    return write(parts, wanted, is_eio)


def joined(folder: str, wanted: Seeds | None, is_eio: bool, may_fail: bool) -> int:
    """Writes what one sweep of all seeds writes, or tells which are missing, and answers the
    status.
    """
    parts = read_parts(folder)
    check_parts(parts)
    if not parts:
        raise Fault(Place(folder, 0), "no rows are there")
    if may_fail and parts[0].stamp and parts[0].stamp.findings == NONE:
        raise Fault(Place(folder, 0), "--fail wants findings, and rows of seeds are there")
    wanted = wanted or Seeds(parts[0].seeds.first, parts[-1].seeds.last)
    gaps = list(missing(wanted, [part.seeds for part in parts]))
    tell_gaps(folder, gaps)
    if gaps:
        return 1
    are_any = write_all(parts, wanted, is_eio)
    sys.stdout.flush()
    return 4 if may_fail and are_any else 0
