"""The orders that the guest runs for a bundle.

The guest finds a folder /orders/N for each bundle, with files:

  script    one order on a line, behind the script's line: `disk N SECTORS`, `dmsetup WORDS`, `sleep MICROSECONDS`,
            `replay`, `wait`, and `limit MILLISECONDS`, how long a command is waited for
  t.NAME    the lines of a table, as in the bundle; 1:N has become the number that disk N has in the guest
  limit     how many milliseconds the bundle may take
  log.K     log K: `file PATH` for each file in order, then `KIND LINE FILE FROM LENGTH BYTE`; KIND is r, w, t, s for
            a read, write, trim and flush, and p for a pause of FROM microseconds
"""

from __future__ import annotations

import re
from typing import NamedTuple

from dmlab_tools import kernel_image

FIRST_DISK, MAJOR = 200, 253
# What is waited for a command, in milliseconds.
LIMIT = 10000
# The bytes of the longest operation, and the longest time in milliseconds.
LONGEST, LONGEST_TIME = 1048576, 2000000000
KINDS = {"read": "r", "write": "w", "trim": "t", "sync": "s", "datasync": "s"}
COMMANDS = (
    "create",
    "load",
    "reload",
    "clear",
    "suspend",
    "resume",
    "remove",
    "message",
    "status",
    "table",
)


class Part(NamedTuple):
    """A part of a bundle."""

    kind: str
    name: str
    lines: list[str]


class Unfit(Exception):
    """Why a bundle can't be run by the guest."""


def is_skipped(line: str) -> bool:
    """Whether a line of a table or script has nothing to say."""
    return not line.split() or line.startswith("#")


def read_parts(text: str) -> list[Part]:
    """The parts of a bundle in their order."""
    parts = []
    for line in text.splitlines():
        if line.startswith("=="):
            words = line.split()
            parts.append(
                Part(words[1] if len(words) > 1 else "", words[2] if len(words) > 2 else "", [])
            )
        elif parts:
            parts[-1].lines.append(line)
    if [part.kind for part in parts].count("script") != 1:
        raise Unfit("it has no one script")
    return parts


def named(parts: list[Part], kind: str) -> list[Part]:
    """The parts of a kind."""
    return [part for part in parts if part.kind == kind]


def numbered(part: Part) -> list[tuple[int, list[str]]]:
    """The words of the lines of a part that say something, with their numbers."""
    return [
        (number, line.split()) for number, line in enumerate(part.lines, 1) if not is_skipped(line)
    ]


def into_guest(line: str) -> str:
    """A table line with the disks' numbers that the guest has."""
    return re.sub(
        r"(?<!\S)1:([0-9]{1,3})(?!\S)", lambda disk: f"{MAJOR}:{FIRST_DISK + int(disk[1])}", line
    )


def dmsetup_words(words: list[str], folder: str) -> list[str]:
    """The words of a script's command as dmsetup wants them: a table's name becomes its file."""
    if (
        words[0] in ("create", "load", "reload")
        and len(words) == 3
        and not words[1].startswith("-")
    ):
        if not words[2].startswith("-"):
            return [words[0], words[1], f"{folder}/t.{words[2]}"]
    return words


def order_of(words: list[str], folder: str) -> str:
    """The order of one line of the script."""
    if words[0] == "ram" and len(words) == 3:
        return f"disk {words[1]} {words[2]}"
    if words[0] in ("sleep", "replay", "wait"):
        return " ".join(words)
    if words[0] in COMMANDS and len(words) > 1:
        return "dmsetup " + " ".join(dmsetup_words(words, folder))
    raise Unfit(f"its script has a line that is no command: {' '.join(words)}")


def pauses(parts: list[Part]) -> int:
    """The milliseconds of all waits of the logs and all sleeps of the script."""
    texts = [line.split() for part in parts for line in part.lines]
    waits = [words[2] for words in texts if len(words) == 4 and words[1] == "wait"]
    sleeps = [words[1] for words in texts if len(words) == 2 and words[0] == "sleep"]
    return sum(int(word) // 1000 for word in waits + sleeps if word.isdigit())


def held_time(parts: list[Part]) -> int:
    """The milliseconds for which delays may hold the operations of all logs, one after another,
    and by how much Linux's timers are later.
    """
    texts = [line.split() for part in named(parts, "table") for line in part.lines]
    delays = [
        max((int(word) for word in words[5::3] if word.isdigit()), default=0)
        for words in texts
        if words[2:3] == ["delay"]
    ]
    count = sum(len(part.lines) for part in named(parts, "log"))
    return sum(delays) * count * 9 // 8


def longest_time(parts: list[Part]) -> int:
    """How many milliseconds a command of a bundle is waited for: LIMIT, and the waits and delays
    behind it.
    """
    return min(LIMIT + pauses(parts) + held_time(parts), LONGEST_TIME)


def bundle_time(parts: list[Part]) -> int:
    """How many milliseconds of the guest's time a bundle may take."""
    commands = len(numbered(named(parts, "script")[0]))
    return min(2 * longest_time(parts) + 1000 * commands, LONGEST_TIME)


def script_orders(parts: list[Part], folder: str) -> str:
    """The orders of the script."""
    script = named(parts, "script")[0]
    orders = [f"{number} {order_of(words, folder)}" for number, words in numbered(script)]
    return "\n".join([f"0 limit {longest_time(parts)}", *orders]) + "\n"


def is_in_reach(words: list[str]) -> bool:
    """Whether the guest has numbers and memory for an operation."""
    return (
        words[2].isdigit()
        and words[3].isdigit()
        and int(words[2]) < 1 << 63
        and (int(words[3]) <= LONGEST or words[1] in ("sync", "datasync", "wait"))
    )


def log_step(number: int, words: list[str], log: int, files: list[str]) -> str | None:
    """The order of one line of a log, or nothing for a line that the guest has nothing to do for."""
    if len(words) == 2 and words[1] in ("add", "open", "close"):
        return None
    if len(words) != 4 or words[1] not in (*KINDS, "wait") or not is_in_reach(words):
        raise Unfit(f"a log has a line that the guest doesn't know: {' '.join(words)}")
    if words[1] == "wait":
        pause = int(words[2])
        return f"p {number} 0 {pause if pause >= 100 else 0} 0 0"
    return f"{KINDS[words[1]]} {number} {files.index(words[0])} {words[2]} {words[3]} {(16 * log + number) % 256}"


def log_orders(log: int, part: Part) -> str:
    """The orders of a log; log counts from 1."""
    lines = [
        (number, line.split())
        for number, line in enumerate(part.lines, 1)
        if line.split() and number > 1
    ]
    files = sorted({words[0] for _, words in lines if words[1:2] != ["wait"]})
    steps = [log_step(number, words, log, files) for number, words in lines]
    return "".join(
        f"{text}\n" for text in [*(f"file {path}" for path in files), *filter(None, steps)]
    )


def table_orders(part: Part) -> str:
    """The lines of a table for dmsetup."""
    return "".join(into_guest(line) + "\n" for line in part.lines)


def orders(text: str, number: int) -> dict[str, str]:
    """The files of a bundle's orders, by their names in the guest."""
    parts, folder = read_parts(text), f"orders/{number}"
    files = {
        f"{folder}/script": script_orders(parts, "/" + folder),
        f"{folder}/limit": f"{bundle_time(parts)}\n",
    }
    files.update((f"{folder}/t.{part.name}", table_orders(part)) for part in named(parts, "table"))
    files.update(
        (f"{folder}/log.{log}", log_orders(log, part))
        for log, part in enumerate(named(parts, "log"), 1)
    )
    return files


def order_files(bundles: list[str]) -> kernel_image.Files:
    """The files of all bundles' orders."""
    files = {"orders/count": (f"{len(bundles)}\n".encode(), False)}
    for number, text in enumerate(bundles, 1):
        files.update((name, (body.encode(), False)) for name, body in orders(text, number).items())
    return files
