"""kernel_issued: what fio did with a log, as its output tells.

fio tells each operation that it queues and completes (--debug=io). One that it queues and doesn't
complete has failed. Behind its end come the moments of its reads and writes (--write_lat_log), a
line for each that was completed, in milliseconds from its start.
"""

from __future__ import annotations

import re
from typing import NamedTuple

from dmlab_tools.kernel_answers import Command
from dmlab_tools.kernel_orders import Part

# The words that make fio tell it.
TOLD = ("--debug=io", "--disk_util=0", "--log_offset=1")
KINDS = ("read", "write", "trim", "sync", "datasync")
EVENT = re.compile(
    r"io +[0-9]+ +(queue|complete): .*off=0x([0-9a-f]+),len=0x([0-9a-f]+),ddir=([0-4]),"
)
MOMENT = re.compile(r"([0-9]+), [0-9]+, [01], [0-9]+, [0-9]+, [0-9]+")
SAID = re.compile(r"bad ddir: [0-9]+|fio: io_u error .*")


class Issued(NamedTuple):
    """An operation that fio issued: its kind and place, how it ended, and when if that is told."""

    kind: str
    first: int
    length: int
    result: str
    moment: int | None


def events(out: list[str]) -> list[tuple[str, tuple[str, int, int]]]:
    """What fio tells of operations: `queue` or `complete`, and the kind, first byte and length."""
    found = filter(None, map(EVENT.match, out))
    return [(it[1], (KINDS[int(it[4])], int(it[2], 16), int(it[3], 16))) for it in found]


def issued(command: Command) -> list[Issued]:
    """The operations that fio issued, in order."""
    moments = [1000 * int(it[1]) for it in map(MOMENT.fullmatch, command.out) if it]
    told, found = events(command.out), list[Issued]()
    for at, (word, place) in enumerate(told):
        if word == "queue":
            is_done = told[at + 1 : at + 2] == [("complete", place)]
            is_told = is_done and place[0] in ("read", "write") and moments
            moment = moments.pop(0) if is_told else None
            found.append(Issued(*place, "ok" if is_done else "EIO", moment))
    return found


def by_line(log: Part, operations: list[Issued]) -> dict[int, Issued]:
    """The operations by the lines of the log that they are of."""
    found, left = {}, list(operations)
    for number, line in enumerate(log.lines, 1):
        words = line.split()
        if left and words[1:] == [left[0].kind, str(left[0].first), str(left[0].length)]:
            found[number] = left.pop(0)
    return found


def sayings(command: Command) -> list[str]:
    """What fio says of lines that it drops, and of operations that fail."""
    return [line for line in [*command.out, *command.err] if SAID.fullmatch(line)]
