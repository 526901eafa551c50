"""trace_rows: reads the trace of a run, as `dmlab trace` writes it, for tools/timeline and
tools/compare.

A trace has a head line with the names of its columns, and a line for each event, with tabs between
the columns. A line that is none is refused by its number. Which bios there are, and what became of
them, trace_bios.py tells.
"""

from __future__ import annotations

import re
from typing import Any, Callable, Iterator, NamedTuple

from dmlab_tools.fio_logs import Fault, Place, is_number
from dmlab_tools.tab_text import columns_of, line_of

COLUMNS = tuple(
    "place clock event log line bio parent kind device sectors happened writers".split()
)
HEAD = line_of(COLUMNS).removesuffix("\n")
NUMBERS = ("place", "clock", "log", "line", "bio", "parent")


class Row(NamedTuple):
    """A line of a trace: numbers as such, sectors as the first and their count, writers as runs,
    None for `-`, and the whole line as text.
    """

    place: int
    clock: int
    event: str
    log: Any
    line: Any
    bio: Any
    parent: Any
    kind: Any
    device: Any
    sectors: Any
    happened: str
    writers: Any
    text: str


class Made(NamedTuple):
    """A bio that a `map` made: its number, the moment until which it is held, and whether a byte
    of its answer changes.
    """

    number: int
    until: int | None
    changed: bool


class Run(NamedTuple):
    """So many sectors of a read that one operation wrote last, by its log and line, or nobody:
    then the writer is None.
    """

    size: int
    writer: tuple[int, int] | None


OPERATIONS = {
    "read": "read",
    "write": "write",
    "trim": "trim",
    "sync": "flush",
    "datasync": "flush",
}
CONTROLS = (
    "create load clear begin drained swap remove message status table sleep replay wait".split()
)
MADE = r"([0-9]{1,20})(?:@([0-9]{1,20}))?((?:![0-9]{1,20}=[0-9]{1,3})*)"
BIOS = re.sub(r"\((?!\?)", "(?:", MADE)
REST = "failed|zeroes|dropped"
RUN = r"([1-9][0-9]{0,19})x(?:([0-9]{1,20})\.([0-9]{1,20})|-)"
LOST = "ok lost"

# The forms of what happened, by the event's first word.
HAPPENED_FORMS = {
    "line": f"add|open|close|wait [0-9]{{1,20}}|{'|'.join(OPERATIONS)}",
    "map": f"{BIOS}(?:,{BIOS})*(?: (?:{REST}))?|{REST}",
    "serve": "served",
    "release": "released",
    "finish": f"ok|EIO|{LOST}",
    "control": "|".join(CONTROLS),
    "clock": "to [0-9]{1,20}",
}
HAPPENED = {word: re.compile(form) for word, form in HAPPENED_FORMS.items()}
FORMS = {
    "kind": "read|write|trim|flush",
    "device": "(?:ram|dm)[0-9]{1,10}",
    "sectors": r"[0-9]{1,20}\+[0-9]{1,20}",
    "event": r"(?:line|map|serve|release|finish) [0-9]{1,20}|control|clock",
    "writers": re.sub(r"\((?!\?)", "(?:", f"{RUN}(?:,{RUN})*"),
}
# Which columns an event tells, and which it may tell.
REQUEST = {"log", "line", "bio", "kind", "device", "sectors"}
TOLD: dict[str, set[str]] = {
    "clock": set(),
    "control": {"line"},
    "line": {"log", "line"},
    "operation": REQUEST,
    "bio": REQUEST,
}
MAY = {"clock": "", "control": "device", "line": "device", "operation": "", "bio": "parent"}
# The forms of events, each with the columns that a line lacked, that were found right.
RIGHT: set[tuple[str, tuple[bool, ...]]] = set()


def word_of(row: Row) -> str:
    """The first word of an event."""
    return row.event.partition(" ")[0]


def number_of(row: Row) -> int:
    """The number that an event names: a log's or a bio's."""
    return int(row.event.partition(" ")[2])


def is_operation(row: Row) -> bool:
    """Whether an event is a log's line that makes a bio."""
    return word_of(row) == "line" and row.happened in OPERATIONS


def made_by(row: Row) -> tuple[list[Made], str]:
    """The bios that a `map` made, and what became of the rest of the bio: failed, zeroes, dropped,
    or nothing.
    """
    bios, _, rest = (
        ("", "", row.happened) if row.happened in REST.split("|") else row.happened.partition(" ")
    )
    found = filter(None, (re.fullmatch(MADE, bio) for bio in bios.split(","))) if bios else ()
    return [
        Made(int(bio[1]), int(bio[2]) if bio[2] else None, bool(bio[3])) for bio in found
    ], rest


def runs_of(word: str) -> tuple[Run, ...]:
    """Who wrote the sectors of a read, as runs."""
    found = filter(None, (re.fullmatch(RUN, run) for run in word.split(",")))
    return tuple(Run(int(run[1]), (int(run[2]), int(run[3])) if run[2] else None) for run in found)


class Column(dict[str, Any]):
    """The values of a column by their words, each read once: a number, sectors, runs, or the word
    itself, and None for `-`. Another word is no key.
    """

    def __init__(self, name: str) -> None:
        """The column of this name."""
        super().__init__()
        self.name, self.form = name, re.compile(FORMS.get(name, ".+"))
        self.may_lack = name not in ("place", "clock", "event", "happened")

    def __missing__(self, word: str) -> Any:
        """The value of a word that wasn't read before. Words that seldom come twice aren't kept."""
        found = self.read(word)
        if self.name not in ("place", "bio", "parent", "event", "happened"):
            self[word] = found
        return found

    def read(self, word: str) -> Any:
        """The value of a word."""
        if word == "-" and self.may_lack:
            return None
        if not (is_number(word) if self.name in NUMBERS else self.form.fullmatch(word)):
            raise KeyError(self.name)
        if self.name == "sectors":
            return tuple(map(int, word.split("+")))
        if self.name == "writers":
            return runs_of(word)
        return int(word) if self.name in NUMBERS else word


READERS: tuple[Callable[[str], Any], ...] = tuple(Column(name).__getitem__ for name in COLUMNS)


def values(place: Place, words: list[str]) -> list[Any]:
    """The values of a line's words."""
    try:
        return [read(word) for read, word in zip(READERS, words)]
    except KeyError as error:
        name = error.args[0]
        word = words[COLUMNS.index(name)] or "nothing"
        raise Fault(place, f"{word} stands in the column {name}") from error


def form_of(row: Row) -> str:
    """What an event is: the clock's, the script's, a log's line, one that is an operation, or a
    bio's.
    """
    word = word_of(row)
    if word == "line":
        return "operation" if is_operation(row) else "line"
    return word if word in TOLD else "bio"


def lacks(row: Row) -> tuple[bool, ...]:
    """Which of the columns that not every event tells a line lacks."""
    return tuple([it is None for it in row[3:10]])


def check_told(place: Place, row: Row, form: str) -> None:
    """Refuses a line that tells other columns than its event has. What is right once is right
    for each line of the same form that lacks the same columns.
    """
    if (form, lacks(row)) in RIGHT:
        return
    for name in sorted(REQUEST | {"parent"}):
        if name != MAY[form] and (getattr(row, name) is not None) != (name in TOLD[form]):
            raise Fault(
                place, f"{row.event} {'wants a' if name in TOLD[form] else 'has no'} column {name}"
            )
    RIGHT.add((form, lacks(row)))


def check_named(place: Place, row: Row, form: str) -> None:
    """Refuses a line whose columns tell another log, bio or kind than its event."""
    named = row.bio if form == "bio" else row.log if form in ("line", "operation") else None
    if named is not None and number_of(row) != named:
        raise Fault(place, f"{row.event} stands beside the number {named}")
    if form == "operation" and OPERATIONS[row.happened] != row.kind:
        raise Fault(place, f"{row.happened} makes no bio of the kind {row.kind}")


def is_answer(row: Row) -> bool:
    """Whether an event answers an operation: a bio that was made for no other one."""
    return word_of(row) in ("serve", "finish") and row.parent is None


def check_lost(place: Place, row: Row) -> None:
    """Refuses a line that tells another thing as lost than an operation that is a write or trim."""
    if row.happened == LOST and (row.kind not in ("write", "trim") or not is_answer(row)):
        raise Fault(
            place, f"{row.event} answers no log's write or trim, and can't have happened as {LOST}"
        )


def check_writers(place: Place, row: Row) -> None:
    """Refuses a line that tells who wrote what was read where nothing was, or doesn't where
    something was.
    """
    wanted = is_answer(row) and row.kind == "read" and row.happened != "EIO"
    if wanted != bool(row.writers):
        raise Fault(place, f"{row.event} {'wants a' if wanted else 'has no'} column writers")
    if not wanted:
        return
    told = sum(run.size for run in row.writers)
    if told != row.sectors[1]:
        raise Fault(
            place, f"the writers of {row.event} have {told} sectors, and its bio {row.sectors[1]}"
        )
    if any(one.writer == other.writer for one, other in zip(row.writers, row.writers[1:])):
        raise Fault(place, f"two runs of {row.event} that lie side by side have one writer")


# The lines that come most often, each a whole form: a log's read, write or trim, and what becomes
# of a bio, but for the answer to a read and a lost answer. Other lines are read column by column.
SHORT = "[0-9]{1,18}"
COMMON_LINE = re.compile(
    rf"({SHORT})\t({SHORT})\t(line ({SHORT}))\t\4\t({SHORT})\t({SHORT})\t(-)"
    rf"\t(read|write|trim)\t({FORMS['device']})\t({SHORT}\+{SHORT})\t(\8)\t-"
)
COMMON_BIO = re.compile(
    rf"({SHORT})\t({SHORT})\t((?:map|serve|release|finish) ({SHORT}))\t({SHORT})\t({SHORT})\t\4"
    rf"\t(-|{SHORT})\t({FORMS['kind']})\t({FORMS['device']})\t({SHORT}\+{SHORT})"
    rf"\t((?<=\t)(?:(?:{SHORT},)*{SHORT}|served|released|ok))\t-"
)
READ_LOG, READ_LINE, READ_SECTORS = (
    READERS[COLUMNS.index(it)] for it in ("log", "line", "sectors")
)
BECAME = {"served": "serve", "released": "release", "ok": "finish"}


def common_line(text: str) -> Row | None:
    """A log's read, write or trim, or nothing where a line is none."""
    found = COMMON_LINE.fullmatch(text)
    if not found:
        return None
    place, clock, event, log, line, bio, _, kind, device, sectors, did = found.groups()
    asked = (kind, device, READ_SECTORS(sectors), did, None, text)
    told = (READ_LOG(log), READ_LINE(line), int(bio), None)
    return Row._make((int(place), int(clock), event, *told, *asked))


def common_bio(text: str) -> Row | None:
    """An event of a bio that has its plainest form, or nothing where a line is none."""
    found = COMMON_BIO.fullmatch(text)
    if not found:
        return None
    place, clock, event, bio, log, line, parent, kind, device, sectors, did = found.groups()
    is_answer_to_read = parent == "-" and kind == "read" and not event.startswith("map")
    if is_answer_to_read or word_before(event) != BECAME.get(did, "map"):
        return None
    asked = (kind, device, READ_SECTORS(sectors), did, None, text)
    above = None if parent == "-" else int(parent)
    told = (READ_LOG(log), READ_LINE(line), int(bio), above)
    return Row._make((int(place), int(clock), event, *told, *asked))


def word_before(event: str) -> str:
    """The first word of an event's text."""
    return event[: event.index(" ")]


def read_row(place: Place, text: str) -> Row:
    """A line of a trace."""
    return common_bio(text) or common_line(text) or any_row(place, text)


def any_row(place: Place, text: str) -> Row:
    """A line of a trace of any form, read column by column."""
    words = columns_of(place, text)
    if len(words) != len(COLUMNS):
        wanted = f"a line of a trace has {len(COLUMNS)} columns with tabs between them"
        raise Fault(place, f"{wanted}, and this one {len(words)}")
    row = Row._make([*values(place, words), text])
    if not HAPPENED[word_of(row)].fullmatch(row.happened):
        raise Fault(place, f"{row.event} can't have happened as {row.happened}")
    form = form_of(row)
    check_told(place, row, form)
    check_named(place, row, form)
    check_lost(place, row)
    check_writers(place, row)
    return row


def check_course(place: Place, row: Row, before: Row | None) -> None:
    """Refuses a line whose place or moment doesn't go on from the line before."""
    if row.place != (before.place + 1 if before else 1):
        raise Fault(
            place, f"the place is {row.place}, and not {before.place + 1 if before else 1}"
        )
    moment = row.clock
    if before:
        moment = int(before.happened.split()[1]) if before.event == "clock" else before.clock
    if row.clock != moment:
        raise Fault(place, f"the clock is {row.clock}, and was {moment} after the event before")


def read_text(path: str) -> list[str]:
    """The lines of a file."""
    try:
        with open(path, encoding="ascii", errors="surrogateescape", newline="") as file:
            return file.read().removesuffix("\n").split("\n")
    except OSError as error:
        raise Fault(Place(path, 0), error.strerror) from error


def read_trace(path: str) -> list[Row]:
    """The lines of a trace, but for its head line."""
    head, *lines = read_text(path)
    if head != HEAD:
        raise Fault(
            Place(path, 1), "no trace: its first line has other columns than `dmlab trace` writes"
        )
    rows: list[Row] = []
    before = None
    for number, text in enumerate(lines, 2):
        row = read_row(Place(path, number), text)
        check_course(Place(path, number), row, before)
        rows.append(row)
        before = row
    return rows
