"""fio_logs: reads the logs that fio recorded, line by line, for tools/bundle and tools/iolog3to2.

A file has one log or, where several jobs of fio wrote to it, several, each with a header of its
own. No more of a file than a line is held at a time. A line end is a newline, or a carriage return
and a newline.

Jobs that run side by side with one `write_iolog` tear one another's lines: fio puts out each job's
lines in blocks, which end amid a line. A line that can't be read in a file of several headers is
told as such, and so is a moment that goes back.
"""

from __future__ import annotations

import os
import re
import sys
from typing import Callable, Iterator, NamedTuple, NoReturn

from dmlab_tools.progress import Progress

FILE_ACTIONS = ("add", "open", "close")
RANGES = ("read", "write", "trim")
OPERATIONS = (*RANGES, "sync", "datasync")
FORMS = {2: "FILE ACTION [OFFSET LENGTH]", 3: "TIMESTAMP FILE ACTION [OFFSET LENGTH]"}
LONGEST_LINE = 65536
TORN = (
    "several jobs share this file, which tears lines: give each job its own write_iolog, "
    "by sections in place of numjobs"
)
NO_RANGE_SYNC = (
    "dmlab has no sync_file_range: record with fdatasync=N in its place, or leave such lines out"
)


class Place(NamedTuple):
    """A place in a file: its path, and a line or 0 for none."""

    path: str
    line: int


class Fault(Exception):
    """What can't be taken, and where: a path and a line, or 0 for no line."""

    def __init__(self, place: Place, why: str) -> None:
        self.place, self.why = place, why
        super().__init__(
            f"{place.path}, line {place.line}: {why}" if place.line else f"{place.path}: {why}"
        )


# how far a file is read
PROGRESS = Progress("read", "lines", delay=0.5)


def run(tool: str, make: Callable[[], str]) -> int:
    """Prints what a tool makes, all of it or nothing but the line of its first fault, and answers
    the status.
    """
    try:
        text = make()
    except Fault as fault:
        PROGRESS.wipe()
        print(f"{tool}: {fault}", file=sys.stderr)
        return 1
    PROGRESS.wipe()
    try:
        sys.stdout.write(text)
        sys.stdout.flush()
    except OSError as error:
        print(f"{tool}: standard output: {error.strerror}", file=sys.stderr)
        os.dup2(os.open(os.devnull, os.O_WRONLY), 1)  # or the rest would be tried once more
        return 1
    return 0


def is_plain(word: str) -> bool:
    """Whether a word has no blank and no byte that dmlab doesn't take, and isn't empty."""
    return re.fullmatch("[!-~]+", word) is not None


def pair(word: str) -> tuple[str, str]:
    """A word LEFT=RIGHT as these two, parted at its last equals sign."""
    left, _, right = word.rpartition("=")
    if not left or not is_plain(right):
        raise ValueError(word)
    return left, right


def is_number(word: str) -> bool:
    """Whether dmlab takes a word for a number."""
    return word.isascii() and word.isdigit() and len(word) <= 20 and int(word) < 1 << 64


def read_lines(path: str, file: int | None = None) -> Iterator[tuple[Place, list[str]]]:
    """The lines of a file that have words, each as its place and its words. `file` is read in
    place of the path.
    """
    try:
        with open(path if file is None else file, "rb") as opened:
            number = 0
            while line := opened.readline(LONGEST_LINE):
                number += 1
                place = Place(path, number)
                if len(line) == LONGEST_LINE:
                    raise Fault(place, f"the line has {LONGEST_LINE} bytes or more")
                if number % 8192 == 0:
                    PROGRESS.show(number, lambda: path)
                if words := line.decode("utf-8", "surrogateescape").split():
                    yield place, words
    except OSError as error:
        raise Fault(Place(path, 0), error.strerror) from error


class Log(NamedTuple):
    """A log of fio: its version, where its header stands, its lines behind that, which are read as
    they are asked for, and its file.
    """

    version: int
    place: Place
    lines: Iterator[tuple[Place, list[str]]]
    file: LogFile


class LogFile:
    """A file of logs that is read from its first line to its last."""

    def __init__(self, path: str, file: int | None = None) -> None:
        self.path, self.headers = path, 0
        self.lines = read_lines(path, file)
        self.next: tuple[Place, list[str]] | None = None
        self.went_back: Place | None = None

    def rest_of_log(self) -> Iterator[tuple[Place, list[str]]]:
        """The lines up to the next header, which is kept."""
        for place, words in self.lines:
            if is_header(words):
                self.next = place, words
                return
            yield place, words

    def logs(self) -> Iterator[Log]:
        """The logs, one for each header. What wasn't read of a log is skipped at the next one."""
        self.next = next(self.lines, None)
        if self.next is None:
            raise Fault(Place(self.path, 1), "no log of fio: there is no line")
        while self.next:
            (place, words), self.next = self.next, None
            self.headers += 1
            if self.went_back:
                raise Fault(self.went_back, f"the moment goes back: {TORN}")
            log = Log(version_of(place, words), place, self.rest_of_log(), self)
            yield log
            for _ in log.lines:
                pass

    def note_back(self, place: Place) -> None:
        """A line's moment is before that of the line above: a fault if the file has several
        headers.
        """
        if self.headers > 1:
            raise Fault(place, f"the moment goes back: {TORN}")
        self.went_back = self.went_back or place

    def fail(self, fault: Fault) -> NoReturn:
        """A line can't be read: the fault, and that lines are torn if the file has several
        headers.
        """
        if self.headers + sum(has_header(words) for _, words in self.lines) > 1:
            raise Fault(fault.place, f"{fault.why}: {TORN}") from fault
        raise fault


def is_header(words: list[str]) -> bool:
    """Whether a line is a log's header, of any version."""
    return words[:2] == ["fio", "version"] and words[3:] == ["iolog"]


def has_header(words: list[str]) -> bool:
    """Whether a line ends as a header does, behind torn words too."""
    return words[-1] == "iolog" and len(words) > 3 and words[-3] == "version"


def version_of(place: Place, words: list[str]) -> int:
    """The version that a header tells, which is 2 or 3."""
    if not is_header(words):
        raise Fault(
            place,
            "no log of fio: its first line is not `fio version 2 iolog` or `fio version 3 iolog`",
        )
    if words[2] not in ("2", "3"):
        raise Fault(place, f"a log of version {words[2]}, and not of 2 or 3")
    return int(words[2])


class Entry(NamedTuple):
    """A line of a log: its moment, which is 0 in version 2, and its file, action and numbers."""

    moment: int
    file: str
    action: str
    numbers: tuple[int, ...]


ACTIONS = {
    2: {2: FILE_ACTIONS, 4: (*OPERATIONS, "wait")},
    3: {2: FILE_ACTIONS, 4: OPERATIONS},
}


def entry(version: int, place: Place, words: list[str]) -> Entry:
    """A log's line."""
    moment, *rest = words if version == 3 else ["0", *words]
    if len(rest) == 4 and rest[1] == "sync_file_range":
        raise Fault(place, NO_RANGE_SYNC)
    if rest[1:2] == [] or rest[1] not in ACTIONS[version].get(len(rest), ()):
        raise Fault(place, f"not {FORMS[version]}")
    for word in (moment, *rest[2:]):
        if not is_number(word):
            raise Fault(place, f"{word} is no number")
    return Entry(int(moment), rest[0], rest[1], tuple(map(int, rest[2:])))


def entries(log: Log) -> Iterator[tuple[Place, Entry]]:
    """A log's lines, each with its place. A moment of version 3 that goes back is noted."""
    last = 0
    for place, words in log.lines:
        try:
            found = entry(log.version, place, words)
        except Fault as fault:
            log.file.headers += has_header(words)
            log.file.fail(fault)
        if found.moment < last:
            log.file.note_back(place)
        last = found.moment
        yield place, found


def read_logs(path: str, file: int | None = None) -> Iterator[Log]:
    """The logs of a file, each to be read before the next one. A line that can't be read is a
    fault at once, or at the next header at the latest.
    """
    return LogFile(path, file).logs()
