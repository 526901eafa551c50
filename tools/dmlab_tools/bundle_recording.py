"""bundle_recording: makes a log of a recording of dm-log-writes, for tools/bundle."""

from __future__ import annotations

import argparse
from typing import Iterator

from dmlab_tools.bundle_disks import MOST_SECTORS
from dmlab_tools.bundle_logs import Part, Store, check, log_name
from dmlab_tools.bundle_machine import Machine
from dmlab_tools.compact_stack import TooMany
from dmlab_tools.fio_logs import Fault, Place
from dmlab_tools.fio_steps import Step, verified
from dmlab_tools.recording_file import Recording, entry_place, read_recording
from dmlab_tools.recording_lines import MOST_LINES, Line, Span, lines_of, span_of

PACE = 1000
FIRST = 2  # the lines before those of entries


def numbers_of(line: Line, pace: int) -> tuple[int, ...]:
    """The two numbers of a line. The second one of a wait, which dmlab ignores, is the number of
    the entry.
    """
    if line.action == "wait":
        return pace, line.entry
    return 512 * line.first, 512 * line.size


def steps_of(recording: Recording, span: Span, device: str, pace: int) -> Iterator[Step]:
    """The lines of the log."""
    place = Place(recording.path, 0)
    yield from (Step(place, device, "add", ()), Step(place, device, "open", ()))
    for line in lines_of(recording, span):
        place = entry_place(recording.path, line.entry)
        yield Step(place, device, line.action, numbers_of(line, pace))


def check_end(machine: Machine, step: Step) -> None:
    """Refuses a line that reaches past the end of its device."""
    if step.action not in ("write", "trim"):
        return
    end = sum(step.numbers) // 512
    if step.device.startswith("/dev/mapper/") and end > (size := machine.size(step.device)):
        raise Fault(
            step.place,
            f"it reaches to sector {end} of {step.device}, whose table has {size}: give the "
            "device a table of the recorded disk's size",
        )
    if step.device.startswith("/dev/ram") and end > MOST_SECTORS and not machine.kept:
        raise Fault(
            step.place,
            f"it reaches to sector {end}, and dmlab has {MOST_SECTORS} of all disks: record a "
            "disk of at most 32 MiB",
        )


def checked(machine: Machine, steps: Iterator[Step]) -> Iterator[Step]:
    """The lines of the log, each of which dmlab takes."""
    for step in steps:
        check_end(machine, step)
        try:
            check(machine, step)
        except TooMany as most:
            raise Fault(
                step.place, f"the entries up to here need more than {most}: take less by --to"
            ) from most
        yield step


def refuse_more(recording: Recording, span: Span, steps: list[Step]) -> None:
    """Refuses a log of more lines than dmlab takes."""
    if len(steps) <= MOST_LINES:
        return
    entries = [line.entry for line in lines_of(recording, span)]
    last = max(span.first, entries[min(MOST_LINES - FIRST, len(entries) - 1)] - 1)
    raise Fault(
        Place(recording.path, 0),
        f"its entries {span.first} to {span.last} make {len(steps)} lines, and a log has at most "
        f"{MOST_LINES}: --from MARK --to MARK take a part, such as --to {last}",
    )


def read_recorded(machine: Machine, words: argparse.Namespace) -> list[Part]:
    """The log of the recording."""
    recording = read_recording(words.log_writes)
    span = span_of(recording, words.begin, words.end)
    device = machine.device(Place("--device", 0), words.device)
    if machine.kept and not device.startswith("/dev/mapper/"):
        raise Fault(Place(f"--device {device}", 0), "--compact needs a device with a table")
    steps = list(checked(machine, steps_of(recording, span, device, words.pace or PACE)))
    steps = verified(steps) if words.verify else steps
    refuse_more(recording, span, steps)
    remark = f"recording {recording.path}, entries {span.first} to {span.last}"
    if machine.kept:
        remark += f", of {machine.size(device)} sectors"
    return [Part(log_name(recording.path, []), Store(steps), remark)]
