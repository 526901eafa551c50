"""bundle_machine: the devices of a machine's tables that a bundle has, for tools/bundle.

A table is looked at when its device is first needed: each device is without --only and --compact,
and else those that are named or that logs use, and what lies below them.
"""

from __future__ import annotations

import re
from typing import Iterator, NoReturn

from dmlab_tools.bundle_disks import FEWER, MOST_SECTORS, Disks
from dmlab_tools.bundle_rows import Row, read_row
from dmlab_tools.bundle_tables import Tables
from dmlab_tools.compact_stack import Kept, Line
from dmlab_tools.fio_logs import Fault, Place, is_plain

NAME = "[A-Za-z0-9_][A-Za-z0-9_.-]{0,31}"
MOST_DEVICES, MOST_ROWS = 32, 64


class Machine:
    """The devices that the bundle has, by their names in the tables, and the disks below them."""

    def __init__(
        self, tables: Tables, disks: Disks, renamed: dict[str, str], kept: Kept | None
    ) -> None:
        self.tables, self.disks, self.renamed, self.kept = tables, disks, renamed, kept
        # each device behind those below it
        self.rows: dict[str, list[Row]] = {}
        # the same lists by the devices of the bundle
        self.rows_of: dict[str, list[Row]] = {}
        self.only: set[str] | None = None
        for name in renamed:
            if name not in tables.devices:
                raise Fault(Place(f"--rename {name}={renamed[name]}", 0), f"no table has {name}")

    def called(self, name: str) -> str:
        """The bundle's name for a device."""
        return self.renamed.get(name, name)

    def label(self, name: str) -> str:
        """The bundle's device for a mapped one."""
        return f"/dev/mapper/{self.called(name)}"

    def mapped(self, word: str) -> str | None:
        """The name of the mapped device that a word stands for, or None."""
        known = self.tables.known(word)
        is_mapped = known.startswith("/dev/mapper/") and not self.disks.is_told(word)
        name = known[len("/dev/mapper/") :]
        return name if is_mapped and name in self.tables.devices else None

    def load(self, name: str, above: tuple[str, ...] = ()) -> list[str]:
        """Reads the table of a device and of those below it, and answers which ones are new, each
        behind those that it refers to.
        """
        if name in self.rows:
            return []
        if len(above) == MOST_DEVICES:
            self.refuse_more(name)
        rows = self.read_rows(name)
        new = []
        for row in rows:
            for at in row.references():
                lower = self.mapped(row.arguments[at])
                if lower in (*above, name):
                    raise Fault(
                        row.place,
                        "devices refer to one another in a circle: "
                        + " ".join([*above, name, str(lower)]),
                    )
                if lower is not None:
                    new += self.load(lower, (*above, name))
        self.take(name, rows)
        return [*new, name]

    def read_rows(self, name: str) -> list[Row]:
        """The lines of a device's table."""
        place, lines = self.tables.devices[name]
        if not re.fullmatch(NAME, self.called(name)):
            raise Fault(
                place,
                f"dmlab takes no device of the name {name}: --rename {name}=NEW gives it another",
            )
        rows: list[Row] = []
        for place, words in lines:
            rows.append(
                read_row(place, name, words, rows[-1].start + rows[-1].length if rows else 0)
            )
            if len(rows) > MOST_ROWS:
                raise Fault(place, f"dmlab has {MOST_ROWS} lines of a table at most")
        return rows

    def take(self, name: str, rows: list[Row]) -> None:
        """Takes a device behind those below it."""
        if len(self.rows) == MOST_DEVICES:
            self.refuse_more(name)
        if self.label(name) in self.rows_of:
            place = self.tables.devices[name].place
            raise Fault(place, f"another device has the name {self.called(name)} too")
        self.rows[name] = self.rows_of[self.label(name)] = rows

    def refuse_more(self, name: str) -> NoReturn:
        """Refuses a device that is one too many."""
        place = self.tables.devices[name].place
        raise Fault(place, f"dmlab has {MOST_DEVICES} devices, and {name} is one more: {FEWER}")

    def settle(self, name: str) -> None:
        """Finds the devices of the bundle to which a device's lines refer, which have to be as
        large as that needs.
        """
        rows = self.rows[name]
        for at, row in enumerate(rows):
            words = list(row.arguments)
            for it in row.references():
                words[it] = self.device(row.place, words[it])
                self.reach(row.place, words[it], int(words[it + 1]) + row.length)
            rows[at] = row._replace(arguments=words)
        if self.kept:
            self.refuse_large_block(rows)
            self.kept.put(self.label(name), list(map(line_of, rows)))

    def refuse_large_block(self, rows: list[Row]) -> None:
        """Refuses lines of dust of which no block fits into a bundle."""
        for row in rows:
            if min(row.block(), row.length) > MOST_SECTORS:
                raise Fault(
                    row.place,
                    f"--compact keeps blocks of dust whole, and one of them has {row.block()} "
                    f"sectors: dmlab has {MOST_SECTORS} of all disks",
                )

    def use(self, name: str) -> None:
        """A device is needed, and so are those below it."""
        for new in self.load(name):
            self.settle(new)

    def use_all(self, names: set[str]) -> None:
        """The devices are needed. Their disks are numbered by the order of the tables, where
        nothing has to be settled behind what is below it.
        """
        for name in self.tables.devices:
            if name in names:
                self.load(name)
        order = list(self.rows) if self.kept else list(self.tables.devices)
        for name in order:
            if name in self.rows:
                self.settle(name)

    def use_only(self, words: list[str]) -> None:
        """The named devices are needed. Those that aren't below them are left out."""
        names = set()
        for word in words:
            name = self.mapped(word)
            if name is None:
                raise Fault(Place(f"--only {word}", 0), "no table has this device")
            names.add(name)
        self.use_all(names)
        self.only = set(self.rows)

    def may_be_disk(self, word: str) -> bool:
        """Whether a word can be a disk's. Without `dmsetup ls` a number of 240 and above may be a
        mapped device's.
        """
        if self.disks.is_told(word):
            return True
        if found := re.fullmatch("([0-9]+):[0-9]+", word):
            majors = {it.partition(":")[0] for it in self.tables.numbers if ":" in it}
            return found[1] not in (majors or set(map(str, range(240, 255))))
        return (
            word.startswith("/dev/")
            and is_plain(word)
            and not word.startswith(("/dev/mapper/", "/dev/dm-"))
        )

    def device(self, place: Place, word: str) -> str:
        """The bundle's device for a word: a mapped one, or a memory disk, which may be new."""
        name = self.mapped(word)
        if name is not None:
            if self.only is not None and name not in self.only:
                raise Fault(place, f"--only leaves out {name}, which this line needs")
            self.use(name)
            return self.label(name)
        if not self.may_be_disk(word):
            is_known = self.tables.numbers or word.startswith("/dev/mapper/")
            hint = "" if is_known else ": the lines of `dmsetup ls` tell numbers"
            raise Fault(place, f"no table tells of {word}{hint}")
        return f"/dev/ram{self.disks.number(place, word)}"

    def size(self, device: str) -> int:
        """The sectors of a mapped device of the bundle."""
        rows = self.rows_of[device]
        return rows[-1].start + rows[-1].length if rows else 0

    def reach(self, place: Place, device: str, end: int) -> None:
        """A line reaches to a sector of a device of the bundle, which has to have it, unless it is
        a disk.
        """
        if device.startswith("/dev/mapper/"):
            if end > (size := self.size(device)):
                raise Fault(
                    place, f"the line reaches to sector {end} of {device}, which has {size}"
                )
        elif not self.kept:
            self.disks.reach(place, int(device[8:]), end)

    def place(self, device: str, sector: int) -> int:
        """Where a sector of the machine's device stands in the bundle."""
        return self.kept.place(device, sector) if self.kept else sector

    def row_text(self, name: str, row: Row) -> str:
        """A table line on devices of the bundle."""
        own, words = self.label(name), list(row.arguments)
        for at in row.references():
            words[at + 1] = str(self.place(words[at], int(words[at + 1])))
        start = self.place(own, row.start)
        length = self.place(own, row.start + row.length) - start
        return " ".join([str(start), str(length), row.kind, *words]) + "\n"

    def disk_sizes(self) -> Iterator[tuple[int, int]]:
        """The size of each disk, by number."""
        if self.kept:
            for number in self.disks.words:
                end = self.kept.of(f"/dev/ram{number}").size()
                self.disks.reach(Place(f"/dev/ram{number}", 0), number, max(1, end))
        yield from self.disks.sizes().items()


def line_of(row: Row) -> Line:
    """A table line as what is kept of a stack is found from."""
    below = [(row.arguments[at], int(row.arguments[at + 1])) for at in row.references()]
    return Line(row.start, row.length, row.block(), below)
