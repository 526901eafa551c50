"""timeline_bundle: what a bundle tells of its trace: the text of its lines, names, and outages,
for tools/timeline.
"""

from __future__ import annotations

import collections
from typing import Iterator, NamedTuple, Sequence, Tuple

from dmlab_tools.fio_logs import Fault, Place
from dmlab_tools.shrink_bundle import read_bundle
from dmlab_tools.timeline_layout import Bar
from dmlab_tools.trace_rows import Row, read_text, word_of

SECOND = 1000000
# The commands of the script that an event of it may come from.
COMMANDS = {
    "load": ("load", "reload"),
    "begin": ("suspend", "resume"),
    "drained": ("suspend", "resume"),
    "swap": ("resume",),
}
# Of a table with more outages than these only those are told in which some event comes.
MOST_OUTAGES = 500


class Live(NamedTuple):
    """A table that is live: from an event to an event, with the moment at which it was loaded."""

    table: str | None
    loaded: int
    first: int
    last: int


# An outage: the live table, the moments from which and up to which it is down, and the line.
Outage = Tuple[Live, int, int, str]


class Bundle:
    """The lines of a bundle's script, logs and tables."""

    def __init__(self, path: str) -> None:
        parts = read_bundle("\n".join(read_text(path)))
        self.path = path
        self.logs = [part for part in parts if part.kind == "log"]
        self.tables = {part.name: part.lines for part in parts if part.kind == "table"}
        self.script = next((part.lines for part in parts if part.kind == "script"), ())

    def text(self, row: Row) -> str:
        """The line that an event comes from."""
        if row.line is None:
            return ""
        lines = self.script
        if row.log is not None:
            lines = self.logs[row.log - 1].lines if 0 < row.log <= len(self.logs) else ()
        return lines[row.line - 1] if 0 < row.line <= len(lines) else ""

    def fits(self, word: str, row: Row) -> bool:
        """Whether the line that an event comes from does what the event did."""
        did, words = row.happened.split()[0], self.text(row).split()
        if word == "line":
            return words[1:2] == [did]
        return bool(words) and words[0] in COMMANDS.get(did, (did,))

    def check(self, rows: list[Row]) -> None:
        """Refuses a bundle whose lines aren't those of the trace."""
        for row in rows:
            word = word_of(row)
            if word in ("line", "control") and not self.fits(word, row):
                where, did = f"log {row.log}" if row.log else "the script", row.happened.split()[0]
                why = f"line {row.line} of {where} has no {did}, and event {row.place} has"
                raise Fault(Place(self.path, 0), why)

    def log_name(self, log: int) -> str:
        """The name of a log."""
        return self.logs[log - 1].name

    def names(self, rows: list[Row]) -> dict[str, str]:
        """The names of the mapped devices, by their words."""
        return {row.device: named(self.text(row))[0] for row in rows if row.happened == "create"}


def named(line: str) -> tuple[str, str | None]:
    """The name of the device that a line of the script is about, and the table, if it has one."""
    words = [word for word in line.split()[1:] if word != "--notable"]
    return words[0], words[1] if len(words) > 1 else None


def live_tables(bundle: Bundle, rows: list[Row]) -> dict[str, list[Live]]:
    """The live tables of each device, each with the events between which it is live."""
    found: dict[str, list[Live]] = collections.defaultdict(list)
    slot: dict[str, tuple[str | None, int]] = {}
    for at, row in enumerate(rows):
        if row.event != "control" or row.device is None:
            continue
        lives = found[row.device]
        if row.happened in ("create", "load"):
            slot[row.device] = (named(bundle.text(row))[1], row.clock)
        if row.happened in ("clear", "remove"):
            slot.pop(row.device, None)
        if lives and (row.happened == "remove" or row.happened == "swap" and row.device in slot):
            lives[-1] = lives[-1]._replace(last=min(at, lives[-1].last))
        if row.happened in ("create", "swap") and row.device in slot:
            lives.append(Live(*slot.pop(row.device), at, len(rows) - 1))
    return found


def flakey_lines(bundle: Bundle, table: str | None) -> Iterator[tuple[str, int, int]]:
    """The flakey lines of a table: the line, and the seconds up and down."""
    for line in bundle.tables.get(table, ()) if table else ():
        words = line.split()
        if words[2:3] == ["flakey"] and not line.startswith("#"):
            yield line, int(words[5]), int(words[6])


def down_times(clocks: list[int], loaded: int, up: int, down: int) -> Iterator[tuple[int, int]]:
    """The moments from which and up to which a flakey line is down, as far as some event comes
    behind the first.
    """
    cycle = (up + down) * SECOND
    numbers: Sequence[int] = range(
        (clocks[0] - loaded) // cycle, (clocks[-1] - loaded) // cycle + 1
    )
    if len(numbers) > MOST_OUTAGES:
        numbers = sorted({(clock - loaded) // cycle for clock in clocks})
    for number in numbers if down else ():
        yield loaded + number * cycle + up * SECOND, loaded + (number + 1) * cycle


def outages(bundle: Bundle, rows: list[Row]) -> dict[str, list[Outage]]:
    """For each device its outages: the live table's events, from which moment up to which it is
    down, and the line.
    """
    found: dict[str, list[Outage]] = collections.defaultdict(list)
    for device, lives in live_tables(bundle, rows).items():
        for live in lives:
            clocks = [row.clock for row in rows[live.first : live.last + 1]]
            for line, up, down in flakey_lines(bundle, live.table):
                found[device] += [
                    (live, *times, line) for times in down_times(clocks, live.loaded, up, down)
                ]
    return found


def suspends(rows: list[Row]) -> dict[str, list[Bar]]:
    """For each device the bars from each suspend to the resume behind it."""
    found, open_ = collections.defaultdict(list), {}
    for at, row in enumerate(rows):
        if row.event == "control" and row.happened == "begin":
            open_[row.device] = at
        elif row.event == "control" and row.happened in ("swap", "remove") and row.device in open_:
            found[row.device].append(Bar(open_.pop(row.device), at, "suspended", (), "suspended"))
    for device, at in open_.items():
        found[device].append(Bar(at, len(rows) - 1, "suspended", (), "suspended"))
    return found
