"""The answers of the guest, and the report that is made of them.

The guest answers on the second serial line: `linux RELEASE`, `dmsetup WORDS`, `target WORDS`; for each
bundle `bundle N`; for each dmsetup `command LINE EXIT` (-1: it waits still) with lines `out TEXT`,
`err TEXT`, and `kernel TEXT`, which went to the kernel's log meanwhile (`between TEXT`: at another
time); for each log `log K` with lines `answer LINE MICROSECONDS RESULT`; and `end N clean`, or
`unclean` where a device is left, behind which the machine is started anew for the other bundles. A
line `fault TEXT` tells what the guest itself could not do.
"""

from __future__ import annotations

import collections
import errno
import os
import re
import time
from typing import NamedTuple

from dmlab_tools.kernel_orders import FIRST_DISK, KINDS, MAJOR, Part, named, numbered, read_parts

TELLING = ("message", "status", "table")


class Command(NamedTuple):
    """What became of a command: its status, and what it and the kernel said."""

    exit: int
    out: list[str]
    err: list[str]
    kernel: list[str]


class Outcome(NamedTuple):
    """What the guest answers for a bundle."""

    commands: dict[int, Command]
    logs: list[dict[int, tuple[int, str]]]
    closed: list[str]
    faults: list[str]


def from_guest(text: str) -> str:
    """A line from the guest with dmlab's numbers and names of the disks and tables."""
    text = re.sub(r"/orders/[0-9]+/t\.", "", text)
    text = re.sub(
        rf"\b{MAJOR}:(2[0-9]{{2}}|3[0-9]{{2}}|4[0-4][0-9]|45[0-5])\b",
        lambda disk: f"1:{int(disk[1]) - FIRST_DISK}",
        text,
    )
    return re.sub(r"\bdisk:([0-9]+)", r"ram\1", text)


def read_outcome(lines: list[str]) -> Outcome:
    """What the guest answers for one bundle."""
    outcome = Outcome({}, [], [], [])
    texts = None
    for line in lines:
        word, _, rest = line.partition(" ")
        if word == "command":
            number, status = map(int, rest.split())
            outcome.commands[number] = Command(status, [], [], [])
            texts = outcome.commands[number]
        elif word in ("out", "err", "kernel"):
            getattr(texts, word).append(from_guest(rest))
        else:
            read_answer(outcome, word, rest)
    return outcome


def read_answer(outcome: Outcome, word: str, rest: str) -> None:
    """A line of the guest that tells of a log, or a fault of the guest itself."""
    if word == "log":
        outcome.logs.append({})
    elif word == "answer":
        number, moment, result = rest.split(" ", 2)
        outcome.logs[-1][int(number)] = (int(moment), result)
    elif word == "closed":
        outcome.closed.append(rest)
    elif word == "fault":
        outcome.faults.append(rest)


def split_answers(lines: list[str]) -> tuple[list[str], list[list[str]]]:
    """The lines of each bundle that came to its end, and those before the first."""
    head: list[str] = []
    blocks: list[list[str]] = []
    block: list[str] | None = None
    for line in lines:
        if line.startswith("bundle "):
            block = []
        elif line.startswith("end ") and block is not None:
            blocks.append(block)
            block = None
        elif block is not None:
            block.append(line)
        elif not blocks:
            head.append(line)
    return head, blocks


def versions(head: list[str]) -> list[str]:
    """The lines of a transcript that say what ran."""
    told = collections.defaultdict(list)
    for line in head:
        word, _, rest = line.partition(" ")
        told[word].append(" ".join(rest.split()))
    release = told["linux"][0] if told["linux"] else "unknown"
    library = [text.split()[2] for text in told["dmsetup"] if text.startswith("Library version: ")]
    date = time.strftime("%Y-%m-%d", time.gmtime())
    targets = sorted(text.replace(" v", " ") for text in told["target"])
    return [
        f"# Linux {release}, {date}",
        f"# targets: {', '.join(targets)}",
        f"# dmsetup {''.join(library)}",
    ]


def error_name(texts: list[str]) -> str:
    """The errno that dmsetup tells, by its name."""
    names = {os.strerror(number): name for number, name in errno.errorcode.items()}
    for text in texts:
        found = re.search(r"(?:failed|error): (.*)$", text)
        if found and found[1] in names:
            return names[found[1]]
    return ""


def refusal(command: Command) -> str:
    """Why a command was refused: the errno, and the kernel's words, or dmsetup's own where the
    kernel has none.
    """
    own = [text for text in command.err if not text.startswith("Command failed")]
    words = "; ".join(command.kernel or own)
    return " ".join(word for word in ("refused", error_name(command.err), words) if word)


def command_lines(
    number: int, words: list[str], command: Command | None, is_told: bool
) -> list[str]:
    """The report's lines of one command: its text, or why it was refused, or, where that is asked,
    `taken`.
    """
    if command is None:
        return []
    if command.exit == -1:
        return [f"script {number} waits"]
    if command.exit != 0:
        return [f"script {number} {refusal(command)}"]
    texts = command.out if words[0] in TELLING else []
    if words[0] == "message" and not texts:
        texts = [f"kernel: {text}" for text in command.kernel]
    if not texts and is_told:
        texts = ["taken"]
    return [f"script {number} {text.strip()}" for text in texts]


def log_lines(log: int, part: Part, answers: dict[int, tuple[int, str]]) -> list[str]:
    """The report's lines of one log."""
    lines = [f"log {part.name}"]
    for number, line in enumerate(part.lines, 1):
        words = line.split()
        if number > 1 and len(words) == 4 and words[1] in KINDS:
            moment_and_result = answers.get(number)
            lines.append(
                f"{number} {words[1]} {moment_and_result[1] if moment_and_result else 'waits'}"
            )
    return lines


def report(text: str, outcome: Outcome, is_refused: bool) -> list[str]:
    """The report of a bundle, in dmlab's lines. Where dmlab refuses the bundle, each command's
    outcome is told.
    """
    parts, lines = read_parts(text), []
    for number, words in numbered(named(parts, "script")[0]):
        lines += command_lines(number, words, outcome.commands.get(number), is_refused)
    for log, part in enumerate(named(parts, "log")):
        if log < len(outcome.logs):
            lines += log_lines(log, part, outcome.logs[log])
    return lines + [f"# the guest says: {fault}" for fault in outcome.faults]
