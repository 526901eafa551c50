"""recorded_scene: what a bundle says of the device of its recording, for tools/aftermath and
tools/outages: the device, which disks' sectors are its sectors when the log begins, and the lines
of the log.

A bundle has one log here, of one device. Which table a device has then follows from the script's
lines up to `replay`.
"""

from __future__ import annotations

from typing import Iterator, NamedTuple, NoReturn

from dmlab_tools.fio_logs import Fault, Place
from dmlab_tools.recorded_moves import (
    Move,
    Segment,
    moved_sector,
    moved_segments,
    moves_of,
    size_before,
)
from dmlab_tools.shrink_bundle import Part, is_row, read_bundle
from dmlab_tools.shrink_words import read_text
from dmlab_tools.time_words import LEAST_WAIT

SILENT = ("status", "table", "message", "sleep")
ALWAYS = ("linear", "flakey", "dust", "delay")


class Operation(NamedTuple):
    """A line of the log that reads, writes, trims or syncs: its number, its action, its sectors,
    its moment in microseconds, and the wait before it with its line, or 0.
    """

    line: int
    action: str
    first: int
    size: int
    moment: int
    pause: int
    wait: int


class Devices:
    """The tables that the devices have when the log begins, by the script."""

    def __init__(self, script: list[list[str]]) -> None:
        self.sizes: dict[int, int] = {}
        self.names: list[str] = []
        self.live: dict[str, str] = {}
        self.waiting: dict[str, str] = {}
        for words in script:
            self.take(words[0], words[1:])

    def take(self, command: str, words: list[str]) -> None:
        """Goes on by a command."""
        names = [word for word in words if word != "--notable"]
        if command == "ram":
            self.sizes[int(words[0])] = int(words[1])
        elif command == "create":
            self.names.append(names[0])
            if len(names) > 1:
                self.live[names[0]] = names[1]
        elif command in ("load", "reload"):
            self.waiting[names[0]] = names[1]
        elif command == "resume" and names[0] in self.waiting:
            self.live[names[0]] = self.waiting.pop(names[0])
        elif command == "clear":
            self.waiting.pop(names[0], None)

    def name(self, word: str) -> str | None:
        """The name of a mapped device, or None for a disk's word."""
        for prefix in ("/dev/dm-", "253:"):
            if word.startswith(prefix):
                return self.names[int(word[len(prefix) :])]
        return word[len("/dev/mapper/") :] if word.startswith("/dev/mapper/") else None


class Scene:
    """A bundle of one log, whose device is the one of a recording."""

    def __init__(self, path: str, text: str) -> None:
        self.path, self.text = path, text
        self.parts = read_bundle(text)
        logs = [part for part in self.parts if part.kind == "log"]
        if len(logs) != 1:
            self.refuse(f"it has {len(logs)} logs, and needs the recording's alone")
        self.log = logs[0]
        self.before, self.after = self.script()
        self.devices = Devices([line.split() for line in self.before])
        self.operations = list(operations(self.log))
        self.device = self.device_of_log()
        self.segments = list(self.segments_of(self.device, 0, None))
        self.size = sum(segment.size for segment in self.segments)
        if moves := moves_of(self.parts[0].lines, self.device):
            self.move(moves)

    def move(self, moves: list[Move]) -> None:
        """Takes the machine's sectors in place of those of a compacted bundle."""
        self.size = size_before(self.parts[0].lines) or self.size
        self.segments = list(moved_segments(moves, self.segments))
        self.operations = [
            it._replace(first=moved_sector(moves, it.first)) for it in self.operations
        ]

    def refuse(self, why: str) -> NoReturn:
        """Refuses the bundle."""
        raise Fault(Place(self.path, 0), why)

    def script(self) -> tuple[list[str], list[str]]:
        """The script's commands up to `replay`, and those behind it."""
        lines = [line for part in self.parts if part.kind == "script" for line in part.lines]
        commands = [line for line in lines if is_row(line)]
        if "replay" not in (words := [line.split()[0] for line in commands]):
            self.refuse("its script has no `replay`")
        at = words.index("replay") + 1
        return commands[:at], commands[at:]

    def device_of_log(self) -> str:
        """The device that the log names."""
        found = {words[0] for words in words_of(self.log) if words[1] != "wait"}
        if len(found) != 1:
            self.refuse(f"its log names {len(found)} devices, and a recording is of one")
        return found.pop()

    def rows(self, table: str) -> list[list[str]]:
        """The lines of a table."""
        lines = [part.lines for part in self.parts if (part.kind, part.name) == ("table", table)]
        return [line.split() for line in lines[0] if is_row(line)] if lines else []

    def own_rows(self, name: str) -> list[list[str]]:
        """The lines of the table that a device has when the log begins."""
        return self.rows(self.devices.live.get(name, ""))

    def segments_of(self, device: str, first: int, count: int | None) -> Iterator[Segment]:
        """So many sectors of a device, or all, as segments that count from 0."""
        name = self.devices.name(device)
        if name is None:
            number = int(device.removeprefix("/dev/ram").removeprefix("1:"))
            whole = self.devices.sizes[number] if count is None else count
            yield Segment(0, whole, number, first)
            return
        for words in self.own_rows(name):
            start, length = int(words[0]), int(words[1])
            low = max(start, first)
            high = start + length if count is None else min(start + length, first + count)
            if low < high:
                for segment in self.below(words, low - start, high - low):
                    yield segment._replace(first=segment.first + low - first)

    def below(self, words: list[str], skipped: int, count: int) -> Iterator[Segment]:
        """The segments of so many sectors of a table line, behind those that are skipped."""
        target = words[3:]
        if words[2] not in ALWAYS:
            yield Segment(0, count, None, 0)
            return
        at = 3 if words[2] == "delay" and len(target) > 3 else 0
        yield from self.segments_of(target[at], int(target[at + 1]) + skipped, count)


def read_scene(path: str) -> Scene:
    """The scene of a bundle's file, whose lines have to be as dmlab takes them."""
    text = read_text(path)
    try:
        return Scene(path, text)
    except (ValueError, IndexError, KeyError, RecursionError) as error:
        raise Fault(
            Place(path, 0), "dmlab refuses this bundle: `dmlab check` tells its line"
        ) from error


def words_of(log: Part) -> Iterator[list[str]]:
    """The words of a log's lines behind its header."""
    return (line.split() for line in log.lines[1:] if line.strip())


def operations(log: Part) -> Iterator[Operation]:
    """The operations of a log, by their lines."""
    moment = pause = wait = 0
    for number, line in enumerate(log.lines, 1):
        words = line.split()
        if number == 1 or len(words) < 4:
            continue
        action, first, count = words[1].replace("datasync", "sync"), int(words[2]), int(words[3])
        if action == "wait":
            pause = first if first >= LEAST_WAIT else 0
            moment, wait = moment + pause, number if pause else wait
        elif action == "sync":
            yield Operation(number, action, 0, 0, moment, pause, wait)
        else:
            yield Operation(number, action, first // 512, count // 512, moment, pause, wait)


def control_text(scene: Scene) -> str:
    """The bundle without a fault: the devices as they are when the log begins, where each line
    that may do harm is linear, and a script that makes them and replays the log.
    """
    before = [line for line in scene.before if line.split()[0] not in SILENT]
    words = [word for line in before for word in line.split()[1:]]
    tables = [it for it in scene.parts if it.kind == "table" and it.name in words]
    rows = {it.name: map(honest, scene.rows(it.name)) for it in tables}
    found = [
        "".join(f"{line}\n" for line in (f"== table {name}", *its)) for name, its in rows.items()
    ]
    script = "".join(f"{line}\n" for line in ("== script", *before, "wait"))
    log = "".join(f"{line}\n" for line in (f"== log {scene.log.name}", *scene.log.lines))
    return "".join([*found, script, log])


def honest(words: list[str]) -> str:
    """A table line that does no harm."""
    if words[2] not in ALWAYS:
        return " ".join(words)
    at = 6 if words[2] == "delay" and len(words) > 6 else 3
    return " ".join([*words[:2], "linear", *words[at : at + 2]])
