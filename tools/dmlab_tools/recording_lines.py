"""recording_lines: which lines of a log stand for which entries of a recording.

Behind an `add` and an `open` each entry has a wait, and then:

- a sync if it is a flush;
- writes of its data, or trims if it is a discard, of at most 2,048 sectors each.

FUA makes no difference here, since dmlab's disks have no cache. A mark has no line. Where a part of
a recording is taken, the log begins with what the entries before it left on the disk: a write for
each run of sectors that one of them wrote last, without waits. So the lines follow from the
recording and the part alone, and a line's number tells its entry.
"""

from __future__ import annotations

from typing import Iterable, Iterator, NamedTuple, Optional

from dmlab_tools.fio_logs import Fault, Place
from dmlab_tools.recording_file import DISCARD, FLUSH, Entry, Recording

MOST_LINES, MOST_SECTORS = 10000, 2048
FIRST_LINE = 4  # behind the header, the add and the open


class Line(NamedTuple):
    """A line of the log: its action, its sectors on the device, the number of its entry, and the
    sector of the entry's data with which it begins.
    """

    action: str
    first: int
    size: int
    entry: int
    place: int


class Span(NamedTuple):
    """A part of a recording: the numbers of its first entry and of its last one."""

    first: int
    last: int


def parts(action: str, first: int, count: int, entry: int, place: int) -> Iterator[Line]:
    """A range of sectors as lines that dmlab takes."""
    for done in range(0, count, MOST_SECTORS):
        size = min(MOST_SECTORS, count - done)
        yield Line(action, first + done, size, entry, place + done)


def entry_lines(entry: Entry) -> Iterator[Line]:
    """The lines of an entry, behind its wait."""
    if entry.flags & FLUSH:
        yield Line("sync", 0, 0, entry.number, 0)
    action = "trim" if entry.flags & DISCARD else "write"
    yield from parts(action, entry.first, entry.size, entry.number, 0)


def left_by(entries: Iterable[Entry]) -> dict[int, Optional[tuple[int, int]]]:
    """For each sector that some entries touch: the number of the one that wrote it last, and the
    sector of its data, or None if it was discarded last.
    """
    found: dict[int, Optional[tuple[int, int]]] = {}
    for entry in entries:
        is_gone = entry.flags & DISCARD
        for place in range(entry.size):
            found[entry.first + place] = None if is_gone else (entry.number, place)
    return found


def before_lines(entries: Iterable[Entry]) -> Iterator[Line]:
    """Writes of what some entries left, by rising sectors."""
    run: Optional[Line] = None
    for sector, owner in sorted(left_by(entries).items()):
        if owner is None:
            continue
        entry, place = owner
        if run and (run.first + run.size, run.entry, run.place + run.size) == (sector, *owner):
            run = run._replace(size=run.size + 1)
            continue
        if run:
            yield from parts(*run)
        run = Line("write", sector, 1, entry, place)
    if run:
        yield from parts(*run)


def lines_of(recording: Recording, span: Span) -> Iterator[Line]:
    """The lines of a log behind its first three, for a part of a recording."""
    yield from before_lines(recording.entries[: span.first - 1])
    for entry in recording.entries[span.first - 1 : span.last]:
        lines = list(entry_lines(entry))
        if lines:
            yield Line("wait", 0, 0, entry.number, 0)
        yield from lines


def numbered_lines(recording: Recording, span: Span) -> dict[int, Line]:
    """The lines of a log by their numbers."""
    return dict(enumerate(lines_of(recording, span), FIRST_LINE))


def entry_of_mark(recording: Recording, option: str, mark: str) -> tuple[int, bool]:
    """The number of the entry that a word names, and whether it is a mark: the first mark of this
    text, else an entry by its number.
    """
    for entry in recording.entries:
        if entry.mark == mark:
            return entry.number, True
    if mark.isascii() and mark.isdigit() and 1 <= int(mark) <= len(recording.entries):
        return int(mark), False
    marks = [entry.mark for entry in recording.entries if entry.mark]
    told = f"its marks are {', '.join(marks[:8])}" if marks else "it has no mark"
    raise Fault(
        Place(f"{option} {mark}", 0),
        f"{recording.path} has no such mark: {told}, and entries from 1 to "
        f"{len(recording.entries)}",
    )


def span_of(recording: Recording, begin: str | None, end: str | None) -> Span:
    """The part of a recording from a mark on and before another one, or from an entry to another,
    both of which it has.
    """
    first, last = 1, len(recording.entries)
    if begin is not None:
        number, is_mark = entry_of_mark(recording, "--from", begin)
        first = number + is_mark
    if end is not None:
        number, is_mark = entry_of_mark(recording, "--to", end)
        last = number - is_mark
    if first > last:
        raise Fault(Place(recording.path, 0), "no entry stands between --from and --to")
    return Span(first, last)
