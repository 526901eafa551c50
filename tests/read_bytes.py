#!/usr/bin/env python3
"""tests/read_bytes.py: makes some small bundles, and holds each read's bytes to what `dmlab trace`
tells, from outside.

In a bundle of small_bundles.py a sector of a request has one place on the disks, whichever disk it
is on. So the rows of a trace tell where the bytes of each write go, which bytes a device changes
on their way there or back, and which sectors are answered as zeroes. From these alone the bytes of
each read follow, and have to be the report's. One line for each case that fails, and at the end 'N
passed, M failed'. It wants the proved program. `--bundle N` writes the bundle N.
"""

from __future__ import annotations

import random
import re
import sys
from typing import Counter, Iterator, NamedTuple

sys.dont_write_bytecode = True
from small_bundles import Column, Origin, bundle, dmlab, is_answer, main, rows_of
from writers import bytes_of, fill, results, shifts

# What has to come up in some bundle, or the test looked at too little.
SIGHTS = (
    "byte of an answer",
    "byte of a write",
    "byte of a write below",
    "changed byte read",
    "zeroes",
)
ZEROES = bytes(512)


class Request(NamedTuple):
    """A request: its operation's log and line, its kind, its first sector as the disks count them,
    and how many it has.
    """

    origin: Origin
    kind: str
    first: int
    size: int


def request_of(row: Column, shift: dict[str, int]) -> Request:
    """The request that a row tells of."""
    first, count = map(int, row.sectors.split("+"))
    return Request((int(row.log), int(row.line)), row.kind, first + shift[row.device], count)


def changes_of(happened: str) -> dict[str, list[tuple[int, int]]]:
    """The bytes that a `map` changes: by the number of the request that it made, each place with
    its value.
    """
    made = re.findall(r"(\d+)(?:@\d+)?((?:!\d+=\d+)*)", happened)
    pairs = {number: re.findall(r"!(\d+)=(\d+)", told) for number, told in made}
    return {
        number: [(int(place), int(value)) for place, value in it] for number, it in pairs.items()
    }


class Run:
    """The bytes of a run so far, as its trace tells them: those of the disks, and those of each
    request.
    """

    def __init__(self, shift: dict[str, int], seen: Counter[str]) -> None:
        self.shift, self.seen = shift, seen
        self.disks: dict[tuple[str, int], bytes] = {}
        self.held: dict[str, dict[int, bytes]] = {}
        self.changes: dict[str, list[tuple[int, int]]] = {}

    def changed(self, row: Column, sectors: dict[int, bytes], first: int) -> dict[int, bytes]:
        """The sectors of a request, from this one on, with the bytes changed that were told when
        it was made.
        """
        found = dict(sectors)
        for place, value in self.changes.get(row.bio, []):
            whole = bytearray(found[first + place // 512])
            whole[place % 512] = value
            found[first + place // 512] = bytes(whole)
            self.seen.update([f"byte of {'an answer' if row.kind == 'read' else 'a write'}"])
            self.seen.update(
                ["byte of a write below"] * (row.kind != "read" and row.device.startswith("dm"))
            )
        return found

    def asked(self, row: Column) -> dict[int, bytes]:
        """What a request writes by sectors: what its parent does there, with its own bytes
        changed.
        """
        it = request_of(row, self.shift)
        sectors = range(it.first, it.first + it.size)
        if row.parent == "-" or it.kind == "trim":
            return {at: bytes([fill(it.origin, {it.origin: it.kind})]) * 512 for at in sectors}
        return self.changed(row, {at: self.held[row.parent][at] for at in sectors}, it.first)

    def served(self, row: Column) -> dict[int, bytes]:
        """A disk serves a request."""
        it = request_of(row, self.shift)
        sectors = range(it.first, it.first + it.size)
        if it.kind == "read":
            return {at: self.disks.get((row.device, at), ZEROES) for at in sectors}
        self.disks.update({(row.device, at): whole for at, whole in self.asked(row).items()})
        return {}

    def answered(self, row: Column, sectors: dict[int, bytes]) -> None:
        """A request is answered with these sectors: its parent has them, with the bytes changed
        that were told.
        """
        if row.kind == "read" and row.happened in ("ok", "served"):
            found = self.changed(row, sectors, request_of(row, self.shift).first)
            self.held.setdefault(row.parent, {}).update(found)

    def mapped(self, row: Column) -> None:
        """A device makes the requests for a request's pieces: of a write it hands the bytes on."""
        self.changes.update(changes_of(row.happened))
        self.held[row.bio] = self.asked(row) if row.kind == "write" else {}
        self.seen.update(["zeroes"] * row.happened.endswith("zeroes"))

    def goes_on(self, row: Column) -> dict[int, bytes]:
        """An event comes. The sectors that answer it, if it answers a request."""
        word = row.event.split()[0]
        if word == "map":
            self.mapped(row)
        sectors = (
            self.served(row)
            if word == "serve"
            else self.held.get(row.bio, {})
            if word == "finish"
            else {}
        )
        if word in ("serve", "finish") and row.parent != "-":
            self.answered(row, sectors)
        return sectors


def read_wrong(row: Column, sectors: dict[int, bytes], result: str, shift: dict[str, int]) -> str:
    """What is wrong with the bytes that a read is answered."""
    it = request_of(row, shift)
    wanted = [sectors.get(at, ZEROES) for at in range(it.first, it.first + it.size)]
    bad = [at for at, (one, other) in enumerate(zip(wanted, bytes_of(result))) if one != other]
    return f"sector {bad[0]} of it has other bytes than the trace tells" if bad else ""


def case(number: int, seen: Counter[str]) -> Iterator[str]:
    """What is wrong with a bundle's reads, each in a line."""
    text = bundle(random.Random(number))
    report, rows = dmlab(text, "sim", "--seed", str(number)), rows_of(
        dmlab(text, "trace", "--seed", str(number))
    )
    said, shift = results(report), shifts(text, rows)
    run = Run(shift, seen)
    for row in rows:
        sectors = run.goes_on(row)
        result = (
            said.get((int(row.log), int(row.line)), "")
            if is_answer(row) and row.kind == "read"
            else "EIO"
        )
        if result != "EIO":
            why = read_wrong(row, sectors, result, shift)
            seen.update(
                ["changed byte read"] * any(len(set(whole)) > 1 for whole in sectors.values())
            )
            yield from [f"line {row.line} of log {row.log}: {why}"] * bool(why)


if __name__ == "__main__":
    sys.exit(main(case, SIGHTS))
