"""bundle_logs: the logs of a bundle, for tools/bundle. Of a log no more is held at once than the
lines that dmlab takes, and those of the bundle are kept as numbers until it is written.
"""

from __future__ import annotations

import argparse
import os
import re
from array import array
from typing import Iterable, Iterator, NamedTuple

from dmlab_tools.bundle_machine import NAME, Machine
from dmlab_tools.compact_stack import TooMany
from dmlab_tools.fio_logs import FILE_ACTIONS, OPERATIONS, RANGES, Fault, Log, Place, read_logs
from dmlab_tools.fio_steps import MOST_LINES, Step, Window, cut, pieces, steps_of

MOST_LOGS, LONGEST_RANGE = 64, 1048576
ACTIONS = (*FILE_ACTIONS, *OPERATIONS, "wait")
LESS = "--first N or --between A..B takes less of the logs"


class Store:
    """The steps of a log, four numbers each: the device's, the action's, and those of the line."""

    def __init__(self, steps: Iterable[Step]) -> None:
        self.numbers = array("Q")
        self.devices: list[str] = []
        known: dict[str, int] = {}
        for step in steps:
            at = known.setdefault(step.device, len(known))
            if at == len(self.devices):
                self.devices.append(step.device)
            self.numbers.extend((at, ACTIONS.index(step.action), *(step.numbers or (0, 0))))

    def lines(self, machine: Machine) -> Iterator[str]:
        """The lines of the log in the bundle."""
        found = iter(self.numbers)
        for at, kind, first, length in zip(found, found, found, found):
            device, action = self.devices[at], ACTIONS[kind]
            if action in RANGES:
                first = 512 * machine.place(device, first // 512)
            numbers = "" if action in FILE_ACTIONS else f" {first} {length}"
            yield f"{device} {action}{numbers}\n"


class Part(NamedTuple):
    """A log of the bundle, and a comment on it."""

    name: str
    steps: Store
    remark: str


def check(machine: Machine, step: Step) -> None:
    """Refuses a step whose range dmlab doesn't take, or whose device has no table, and keeps the
    sectors of the range.
    """
    device = step.device
    if device.startswith("/dev/mapper/") and not machine.rows_of[device] and step.action != "wait":
        raise Fault(step.place, f"{device} has no table")
    if step.action in RANGES:
        first, length = step.numbers
        if first % 512 or length % 512:
            raise Fault(
                step.place,
                "offset and length are not of whole sectors of 512 bytes: record with bs and "
                "blockalign of whole sectors, and without bs_unaligned",
            )
        if not 0 < length <= LONGEST_RANGE:
            hint = ": record with bs=1m or less" if length else ""
            raise Fault(
                step.place, f"the length is {length}: dmlab takes 512 to {LONGEST_RANGE}{hint}"
            )
        machine.reach(step.place, device, (first + length) // 512)
        if machine.kept:
            machine.kept.add(device, first // 512, (first + length) // 512)


class Finder:
    """Tells the device for a file of a log, and keeps which files it was asked for."""

    def __init__(self, machine: Machine, words: argparse.Namespace) -> None:
        self.machine, self.files, self.default = machine, dict(words.file), words.device
        self.seen: dict[str, str] = {}

    def device_of(self, place: Place, file: str) -> str:
        """The device of a word for the file, or the file itself if it is one, or the device for
        every other file.
        """
        if file not in self.seen:
            known = self.machine.mapped(file) or self.machine.disks.is_told(file)
            word = self.files.get(file) or (
                file if file.startswith("/dev/") and known else self.default
            )
            if word is None:
                raise Fault(place, f"no device is told for {file}: --file {file}=DEVICE tells it")
            try:
                self.seen[file] = self.machine.device(place, word)
            except TooMany as most:
                raise Fault(place, f"the logs up to here need more than {most}: {LESS}") from most
        return self.seen[file]

    def check(self) -> None:
        """Refuses a word for a file that no log has."""
        for file in self.files:
            if file not in self.seen:
                raise Fault(Place(f"--file {file}", 0), "no log has this file")


def log_name(path: str, taken: list[str]) -> str:
    """A name for a log by that of its file, which no other log has."""
    name = re.sub("[^A-Za-z0-9_.-]", "_", os.path.splitext(os.path.basename(path))[0])
    name = (name if re.match(NAME, name) else "_" + name)[:28]
    return next(
        it
        for it in (name, *(f"{name}.{count}" for count in range(2, MOST_LOGS + 2)))
        if it not in taken
    )


def less(log: Log, words: argparse.Namespace, line: int) -> str:
    """What is told of the words that take less of a log than up to a line."""
    count = line - log.place.line - 1
    if words.between or count < 1:
        return LESS
    return f"--first {count} takes lines that fit, --between A..B another part of the logs"


def checked(
    log: Log, machine: Machine, words: argparse.Namespace, steps: Iterator[Step]
) -> Iterator[Step]:
    """The steps of a log, each of which dmlab takes."""
    for step in steps:
        try:
            check(machine, step)
        except TooMany as most:
            hint = less(log, words, step.place.line)
            raise Fault(step.place, f"the logs up to here need more than {most}: {hint}") from most
        yield step


def too_long(log: Log, words: argparse.Namespace, steps: list[Step]) -> Fault:
    """The fault of a log of too many lines. It says how many fit, with a close for each device."""
    devices = {step.device for step in steps}
    fitting = next(pieces(steps, words.verify))
    hint = less(log, words, fitting[-1 - len(devices)].place.line)
    return Fault(
        log.place,
        f"the log that begins here has more than {MOST_LINES} lines with its waits and reads, "
        f"which dmlab doesn't take: {hint}, and --split makes several logs of it, which run side "
        "by side",
    )


def add_parts(
    log: Log, steps: Iterator[Step], words: argparse.Namespace, parts: list[Part]
) -> None:
    """Adds a log, which may be in several pieces, to the parts."""
    remark = f"{log.place.path} from line {log.place.line} on"
    for piece in cut(steps, words.verify, words.split):
        if len(piece) > MOST_LINES:
            raise too_long(log, words, piece)
        if len(parts) == MOST_LOGS:
            raise Fault(log.place, f"dmlab takes {MOST_LOGS} logs, and here is one more: {LESS}")
        name = log_name(log.place.path, [part.name for part in parts])
        parts.append(Part(name, Store(piece), remark))
        remark = f"goes on from log {name}, but the two run side by side"


def read_parts(machine: Machine, words: argparse.Namespace) -> list[Part]:
    """The logs of the bundle."""
    parts: list[Part] = []
    finder = Finder(machine, words)
    begin, end = words.between or (0, None)
    window = Window(begin, end, words.first)
    for path in words.logs:
        for log in read_logs(path):
            steps = steps_of(log, finder.device_of, 1000 if words.m else 1, window)
            add_parts(log, checked(log, machine, words, steps), words, parts)
    if window == Window():
        finder.check()
    if words.between and not any(part.steps.numbers for part in parts):
        raise Fault(Place("--between", 0), "no log has a line there")
    return parts
