"""bundle_text: makes the text of a bundle, for tools/bundle."""

from __future__ import annotations

import argparse
import re
from typing import Iterator

from dmlab_tools.bundle_disks import MOST_SECTORS, Disks
from dmlab_tools.bundle_logs import LESS, Part, read_parts
from dmlab_tools.bundle_machine import Machine
from dmlab_tools.bundle_recording import read_recorded
from dmlab_tools.bundle_tables import Tables
from dmlab_tools.compact_stack import Kept, TooMany
from dmlab_tools.fio_logs import Fault, Place

MOST_BYTES = 16777216


def machine_of(words: argparse.Namespace) -> Machine:
    """The machine that the tables tell of. Without --only and --compact it has each device."""
    tables = Tables(dict(words.rename))
    for path in words.tables:
        tables.read(path)
    for name, path in words.table:
        tables.read(path, name)
    kept = Kept(MOST_SECTORS) if words.compact else None
    machine = Machine(tables, Disks(words.disk, tables.known), dict(words.rename), kept)
    if words.only:
        machine.use_only(words.only)
    elif not words.compact:
        machine.use_all(set(tables.devices))
    return machine


def moved(machine: Machine, kept: Kept) -> Iterator[str]:
    """The lines that tell where the kept sectors stood before."""
    yield "kept sectors, as FIRST+COUNT of the machine and then of this bundle:"
    names = [machine.label(name) for name in machine.rows]
    for device in [*names, *(f"/dev/ram{number}" for number in sorted(machine.disks.words))]:
        for before, count, now in kept.moved(device):
            yield f"{device} {before}+{count} is {now}+{count}"
    if any(row.is_random() for rows in machine.rows.values() for row in rows):
        yield "random corruption draws other bytes here, since the offset of its line seeds it"
    for name in machine.rows:
        for line, before, count, now in kept.moved_blocks(machine.label(name)):
            blocks = f"dust blocks {before}+{count} are {now}+{count}"
            yield f"{machine.label(name)}, line {line}, {blocks}"


def comments(machine: Machine, words: argparse.Namespace, parts: list[Part]) -> Iterator[str]:
    """The lines at the top of the bundle."""
    tables = [*words.tables, *(path for _, path in words.table)]
    yield "made by tools/bundle" + (" from the tables of " + ", ".join(tables) if tables else "")
    for number, names in sorted(machine.disks.words.items()):
        yield f"/dev/ram{number} stands for {', '.join(names)}"
    for name in machine.rows:
        if machine.called(name) != name:
            yield f"{machine.label(name)} stands for {name}"
    for part in parts:
        yield f"log {part.name}: {part.remark}"
    if machine.kept:
        yield from moved(machine, machine.kept)


def script(machine: Machine) -> Iterator[str]:
    """The lines of the script."""
    for number, size in machine.disk_sizes():
        yield f"ram {number} {size}"
    for name, rows in machine.rows.items():
        called = machine.called(name)
        yield f"create {called} {called if rows else '--notable'}"
    yield from ("replay", "wait")
    for name, rows in machine.rows.items():
        if rows:
            yield f"status {machine.called(name)}"


def lines_of(machine: Machine, words: argparse.Namespace, parts: list[Part]) -> Iterator[str]:
    """The lines of the bundle, those of a log at once."""
    for line in comments(machine, words, parts):
        yield "# " + re.sub("[^ -~]", "?", line) + "\n"
    for name, rows in machine.rows.items():
        if rows:
            yield f"== table {machine.called(name)}\n"
            yield from (machine.row_text(name, row) for row in rows)
    yield "== script\n"
    yield from (f"{line}\n" for line in script(machine))
    for part in parts:
        lines = "".join(part.steps.lines(machine))
        yield f"== log {part.name}\nfio version 2 iolog\n{lines}"


def make(words: argparse.Namespace) -> str:
    """The whole bundle."""
    machine = machine_of(words)
    parts = (read_recorded if words.log_writes else read_parts)(machine, words)
    try:
        if machine.kept:
            machine.kept.fill()
    except TooMany as most:
        raise Fault(Place("the bundle", 0), f"it needs more than {most}: {LESS}") from most
    found, size = [], 0
    for line in lines_of(machine, words, parts):
        found.append(line)
        size += len(line)
        if size > MOST_BYTES:
            raise Fault(
                Place("the bundle", 0),
                f"it would have more than the {MOST_BYTES} bytes that dmlab takes: {LESS}",
            )
    return "".join(found)
