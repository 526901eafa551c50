"""recorded_disks: puts a device together of what `dmlab disks` prints and of a recording's data,
for tools/aftermath.
"""

from __future__ import annotations

import re
from typing import Iterator, NamedTuple

from dmlab_tools.fio_logs import Fault, Place
from dmlab_tools.recorded_image import SECTOR, Image
from dmlab_tools.recorded_scene import Operation, Scene
from dmlab_tools.recording_file import Recording
from dmlab_tools.recording_lines import Line, Span, numbered_lines

HEAD = "disk\tsectors\tlog\tline\tfrom\tchanged"
ROW = re.compile(
    r"ram(\d{1,3})\t(\d{1,5})\+(\d{1,5})\t1\t(\d{1,9})\t(\d{1,5})\t(-|\d+=\d+(?:,\d+=\d+)*)"
)


class Row(NamedTuple):
    """A row of `dmlab disks`: a disk, its first sector, how many, the log's line that wrote them,
    the sector inside that write, and the bytes changed on the way.
    """

    disk: int
    first: int
    size: int
    line: int
    place: int
    changed: str


def read_rows(text: str) -> Iterator[Row]:
    """The rows of a run."""
    head, *lines = text.removesuffix("\n").split("\n")
    if head != HEAD:
        raise Fault(Place("dmlab disks", 1), f"another first line than is known: {head[:80]}")
    for number, line in enumerate(lines, 2):
        found = ROW.fullmatch(line)
        if not found:
            raise Fault(Place("dmlab disks", number), f"no row of a disk: {line[:80]}")
        numbers = tuple(map(int, found.groups()[:5]))
        yield Row(numbers[0], numbers[1], numbers[2], numbers[3], numbers[4], found[6])


class Maker:
    """Puts together the device of a bundle's recording."""

    def __init__(self, scene: Scene, recording: Recording, span: Span) -> None:
        self.scene, self.recording = scene, recording
        self.operations = {it.line: it for it in scene.operations}
        self.lines = numbered_lines(recording, span)
        for operation in scene.operations:
            if operation.action != "read":
                self.check(operation)

    def check(self, operation: Operation) -> None:
        """Refuses a line of the log that isn't the recording's of the same number, or a part."""
        line = self.lines.get(operation.line)
        if line and line.action == operation.action:
            if line.first <= operation.first and end(operation) <= end(line):
                return
        told = f"{line.action} {line.first}+{line.size}" if line else "no line"
        raise Fault(
            Place(f"{self.scene.path}, log {self.scene.log.name}", operation.line),
            f"it is {operation.action} {operation.first}+{operation.size}, and "
            f"{self.recording.path} has {told} there: take the recording, --from and --to of "
            "which tools/bundle made the log",
        )

    def data(self, line: int, place: int, count: int) -> bytes:
        """So many sectors of what a line of the log writes."""
        operation, its = self.operations[line], self.lines[line]
        skipped = its.place + operation.first - its.first
        return self.recording.bytes_of(its.entry, skipped + place, count)

    def written(self) -> Image:
        """The device when each line of the log is done, one after another."""
        image = Image(self.scene.size * SECTOR)
        for line, action, first, count, *_ in self.scene.operations:
            if action in ("write", "trim"):
                is_write = action == "write"
                data = self.data(line, 0, count) if is_write else bytes(count * SECTOR)
                image.write(first * SECTOR, data)
        return image

    def image(self, text: str) -> Image:
        """The device that the rows of a run give."""
        image = Image(self.scene.size * SECTOR)
        for row in read_rows(text):
            for at, row in self.places(row):
                if row.line not in self.lines or row.line not in self.operations:
                    raise Fault(Place("dmlab disks", 0), f"the log has no line {row.line}")
                image.write(at * SECTOR, self.changed(row))
        return image

    def changed(self, row: Row) -> bytes:
        """The sectors of a row, with the bytes that were changed on the way."""
        data = self.data(row.line, row.place, row.size)
        if row.changed == "-":
            return data
        found = bytearray(data)
        for byte, value in (pair.split("=") for pair in row.changed.split(",")):
            found[int(byte)] = int(value)
        return bytes(found)

    def places(self, row: Row) -> Iterator[tuple[int, Row]]:
        """The parts of a row that are on the device, each with its first sector there."""
        for first, count, disk, place in self.scene.segments:
            low, high = max(row.first, place), min(row.first + row.size, place + count)
            if disk == row.disk and low < high:
                skipped = row.place + low - row.first
                yield first + low - place, row._replace(size=high - low, place=skipped)


def end(its: Operation | Line) -> int:
    """The sector behind the last one."""
    return its.first + its.size
