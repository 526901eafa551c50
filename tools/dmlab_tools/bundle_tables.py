"""bundle_tables: reads what dmsetup prints of a machine, for tools/bundle."""

from __future__ import annotations

import re
from typing import NamedTuple

from dmlab_tools.bundle_rows import numbered
from dmlab_tools.fio_logs import Fault, Place, read_lines


class Told(NamedTuple):
    """What the tables tell of a device: where it stands first, and its lines."""

    place: Place
    lines: list[tuple[Place, list[str]]]


class Tables:
    """What dmsetup printed: the lines of the devices, and the devices of numbers and new names."""

    def __init__(self, renamed: dict[str, str]) -> None:
        self.old_names = {new: old for old, new in renamed.items()}
        self.devices: dict[str, Told] = {}
        self.numbers: dict[str, str] = {}

    def read(self, path: str, name: str | None = None) -> None:
        """Takes what dmsetup printed: of all devices, or of the named one."""
        for place, words in read_lines(path):
            if words == ["No", "devices", "found"]:
                raise Fault(place, "dmsetup found no device: it has to be run by root")
            if name is None and (
                found := re.fullmatch(r"\(([0-9]+)[:,]([0-9]+)\)", "".join(words[1:]))
            ):
                self.numbers |= {
                    it: words[0] for it in (f"{found[1]}:{found[2]}", f"/dev/dm-{found[2]}")
                }
            elif name is not None:
                self.add(place, name, words)
            elif words[0].endswith(":"):
                self.add(place, words[0][:-1], words[1:])
            else:
                raise Fault(place, "not NAME: START LENGTH TARGET [ARGUMENTS]")

    def add(self, place: Place, name: str, words: list[str]) -> None:
        """Takes a line of a device's table, or its name alone where it has no table."""
        told = self.devices.setdefault(name, Told(place, []))
        if words:
            told.lines.append((place, words))

    def known(self, word: str) -> str:
        """The one word for all that stand for a device: /dev/mapper/NAME of a mapped one."""
        name = self.numbers.get(word, word.removeprefix("/dev/mapper/"))
        if name not in self.devices:
            name = self.old_names.get(name, name)
        return f"/dev/mapper/{name}" if name in self.devices else numbered(word)
