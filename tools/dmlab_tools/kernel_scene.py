"""What a bundle has: its tables, its script and its logs, as the entries of docs/KERNEL.md ask for
them.
"""

from __future__ import annotations

import re
from typing import Iterator, NamedTuple

from dmlab_tools import kernel_orders


class Line(NamedTuple):
    """A table's line: its number, start, length, type and the words behind it."""

    number: int
    start: str
    length: str
    target: str
    words: list[str]

    def references(self) -> list[tuple[str, str]]:
        """The devices below, each with the offset."""
        step = 3 if self.target == "delay" else len(self.words) or 1
        return [
            (self.words[at], self.words[at + 1])
            for at in range(0, len(self.words) - 1, step)
            if self.target not in ("zero", "error")
        ]

    def features(self) -> list[list[str]]:
        """The features of a flakey line, each with its values."""
        found: list[list[str]] = []
        for word in self.words[5:] if self.target == "flakey" else []:
            if re.match(r"[A-Za-z_]{2}", word):
                found.append([])
            if found:
                found[-1].append(word)
        return found


class Scene:
    """A bundle's parts by their names."""

    def __init__(self, text: str) -> None:
        parts = kernel_orders.read_parts(text)
        # The first line of each log that came right behind a release, once that is known.
        self.released: dict[str, int] = {}
        # Whether fio replayed the log, and its line that failed there, once that is known.
        self.by_fio, self.failed_line = False, 0
        # The moments of dmlab's answers and of Linux's, once they are known.
        self.mine: dict[str, int] = {}
        self.theirs: dict[str, int] = {}
        self.tables = {
            part.name: [table_line(*it) for it in kernel_orders.numbered(part)]
            for part in kernel_orders.named(parts, "table")
        }
        script = kernel_orders.named(parts, "script")[0]
        self.script = dict(kernel_orders.numbered(script))
        self.logs = {
            part.name: {
                number: line.split()
                for number, line in enumerate(part.lines, 1)
                if number > 1 and line.split()
            }
            for part in kernel_orders.named(parts, "log")
        }
        self.devices = [words[1] for words in self.script.values() if words[0] == "create"]

    def see(self, transcript: list[str]) -> None:
        """Looks at a transcript for what the entries ask: whether fio replayed, and what failed."""
        self.by_fio = any(line.startswith("# replayed by fio-") for line in transcript)
        failed = [re.fullmatch(r"([0-9]+) [a-z]+ EIO", line) for line in transcript]
        self.failed_line = next((int(it[1]) for it in failed if it), 0)

    def words_of(self, key: str) -> list[str]:
        """The words of the line of a key."""
        place, _, number = key.rpartition(" ")
        lines = self.script if place == "script" else self.logs.get(place, {})
        return lines.get(int(number), []) if number.isdigit() else []

    def message_keys(self) -> list[str]:
        """The keys of all messages."""
        return [f"script {at}" for at, words in self.script.items() if words[0] == "message"]

    def name_of(self, word: str) -> str:
        """The name of the mapped device or the disk that a word stands for."""
        for pattern in (r"/dev/dm-([0-9]+)", r"253:([0-9]+)"):
            found = re.fullmatch(pattern, word)
            if found and int(found[1]) < len(self.devices):
                return self.devices[int(found[1])]
        return re.sub(r"^1:", "ram", word.rpartition("/")[2])

    def tables_of(self, device: str) -> list[list[Line]]:
        """All tables that a device ever gets."""
        names = [
            words[2]
            for words in self.script.values()
            if words[0] in ("create", "load", "reload") and words[1:2] == [device] and words[2:]
        ]
        return [self.tables[name] for name in names if name in self.tables]

    def below(self, device: str, depth: int = 0) -> Iterator[tuple[str, Line]]:
        """All lines that stand below a device, its own too, each with the device it is of."""
        for table in self.tables_of(device) if depth < 33 else []:
            for line in table:
                yield device, line
                for word, _ in line.references():
                    yield from self.below(self.name_of(word), depth + 1)

    def operations(self, *kinds: str) -> list[list[str]]:
        """The operations of all logs of these kinds."""
        lines = [words for log in self.logs.values() for words in log.values()]
        return [words for words in lines if words[1:2] and words[1] in kinds]


def table_line(number: int, words: list[str]) -> Line:
    """A line of a table from its words."""
    padded = words + [""] * 3
    return Line(number, padded[0], padded[1], padded[2], words[3:])
