"""outage_bundles: puts outages into a bundle, for tools/outages and tools/aftermath.

An outage gives a device another table for a time: the script sleeps, loads the table beside the
device's own, resumes, sleeps again and goes back. The other table has a faulty line in place of
each linear one.
"""

from __future__ import annotations

import re
from typing import Iterator, NamedTuple

from dmlab_tools.fio_logs import Fault, Place
from dmlab_tools.recorded_scene import Operation, Scene, operations
from dmlab_tools.shrink_bundle import Part, read_bundle, text_of
from dmlab_tools.time_words import HOUR

# The fault of an outage, and what the faulty line has in place of `linear DEVICE OFFSET`.
FORMS = {
    "drop_writes": "flakey {} 0 1 1 drop_writes",
    "error_writes": "flakey {} 0 1 1 error_writes",
    r"corrupt_bio_byte \d+ w \d+ \d+": "flakey {} 0 1 5 FAULT",
    r"random_write_corrupt \d+": "flakey {} 0 1 2 FAULT",
    r"delay \d+": "delay {} NUMBER",
    "error": "error",
}
FAULTS = (
    "drop_writes, error_writes, error, `corrupt_bio_byte N w V F`, `random_write_corrupt P` or "
    "`delay MILLISECONDS`"
)


class Outage(NamedTuple):
    """An outage: the device's name, the fault, its beginning and its length in microseconds."""

    device: str
    fault: str
    begin: int
    length: int

    def name(self) -> str:
        """A name that a file may have."""
        fault = self.fault.replace(" ", "-")
        return f"{self.device}-{fault}@{time_text(self.begin)}+{time_text(self.length)}"


def time_text(time: int) -> str:
    """A time as milliseconds."""
    return f"{time / 1000:.3f}".rstrip("0").rstrip(".") + "ms"


def faulty(fault: str, device: str, offset: str) -> str | None:
    """A faulty line behind its sectors, or None if the fault isn't known."""
    for form, text in FORMS.items():
        if re.fullmatch(form, fault):
            text = text.replace("FAULT", fault).replace("NUMBER", fault.split()[-1])
            return text.format(f"{device} {offset}")
    return None


def free_name(scene: Scene) -> str:
    """A name that no table of the bundle has."""
    taken = {part.name for part in scene.parts if part.kind == "table"}
    return next(
        name for name in ("outage", *(f"outage.{it}" for it in range(2, 99))) if name not in taken
    )


def outage_rows(scene: Scene, device: str, fault: str) -> Iterator[str]:
    """The lines of the other table."""
    for words in scene.own_rows(device):
        if words[2] in ("zero", "error"):
            yield " ".join(words)
            continue
        line = faulty(fault, *words[3:5])
        if words[2] != "linear":
            scene.refuse(
                f"{device} has a line {words[2]}, and an outage takes the place of linear lines: "
                "put a linear device above it, and tell that one"
            )
        yield f"{words[0]} {words[1]} {line}"


class Outages:
    """Makes bundles with an outage of one device."""

    def __init__(self, scene: Scene, device: str, fault: str) -> None:
        self.scene, self.device, self.fault = scene, device, fault
        self.own, self.other = scene.devices.live.get(device, ""), free_name(scene)
        if not scene.own_rows(device):
            raise Fault(
                Place(f"--outage {device}={fault}", 0),
                f"{scene.path} has no device {device} with a table: it has "
                f"{', '.join(scene.devices.live)}",
            )
        if scene.after and scene.after[0].split()[0] != "wait":
            scene.refuse(
                f"its script has `{scene.after[0]}` behind `replay`: an outage needs a script "
                "that only waits there"
            )
        rows = "".join(f"{row}\n" for row in outage_rows(scene, device, fault))
        before, self.rest = parted(scene.text)
        at = before.index("== ") if not before.startswith("== ") else 0
        self.head = f"{before[:at]}== table {self.other}\n{rows}{before[at:]}"

    def bundle(self, outage: Outage) -> str:
        """The bundle with an outage."""
        there = f"load {self.device} {self.other}\nresume {self.device}\n"
        back = f"load {self.device} {self.own}\nresume {self.device}\n"
        return self.head + sleeps(outage.begin) + there + sleeps(outage.length) + back + self.rest


def tight(text: str, outage: Outage) -> str:
    """A bundle with an outage, of whose log only the waits are left before the first operation in
    the outage and before the first one behind it. The others are blank lines, so that each line
    keeps its number.
    """
    parts = read_bundle(text)
    return text_of([tight_log(it, outage) if it.kind == "log" else it for it in parts])


def tight_log(log: Part, outage: Outage) -> Part:
    """The log with these waits alone."""
    lines = ["" if line.split()[1:2] == ["wait"] else line for line in log.lines]
    edges, waited = [outage.begin, outage.begin + outage.length], 0
    for it in operations(log):
        if edges and it.moment >= edges[0]:
            file, _, _, number = log.lines[it.wait - 1].split()
            lines[it.wait - 1] = f"{file} wait {it.moment - waited} {number}"
            edges, waited = [edge for edge in edges if edge > it.moment], it.moment
    return log._replace(lines=tuple(lines))


def parted(text: str) -> tuple[str, str]:
    """A bundle up to its `replay`, and the rest."""
    script = re.search(r"^== *script[ \t]*\n", text, re.MULTILINE)
    at = script.end() if script else 0
    replay = re.compile(r"^[ \t]*replay[ \t]*\n", re.MULTILINE).search(text, at)
    end = replay.end() if replay else len(text)
    return text[:end], text[end:]


def sleeps(time: int) -> str:
    """A time as commands, each of an hour at most."""
    found = [HOUR] * (time // HOUR) + [time % HOUR] * (time % HOUR > 0)
    return "".join(f"sleep {it}\n" for it in found)


def begin_of(operation: Operation) -> int:
    """When an outage begins that hits an operation and none before: amid the wait before it."""
    return operation.moment - operation.pause // 2


def writes_from(scene: Scene, each: int) -> list[int]:
    """The moments of each N-th write of the log behind a wait, the first one among them."""
    writes = [it for it in scene.operations if it.action == "write" and it.pause]
    if not writes:
        scene.refuse("no write of its log stands behind a wait, so no outage begins between two")
    return sorted({begin_of(it) for it in writes})[::each]
