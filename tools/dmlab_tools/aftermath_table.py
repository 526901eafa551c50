"""aftermath_table: the table of verdicts of tools/aftermath, and the images that it keeps."""

from __future__ import annotations

import csv
import os
from typing import Callable, Iterable, NamedTuple, TextIO

from dmlab_tools.aftermath_check import Verdict
from dmlab_tools.aftermath_runs import Result
from dmlab_tools.fio_logs import Fault, Place
from dmlab_tools.recorded_image import Image
from dmlab_tools.tab_text import Tabs

COLUMNS = ("runs", "disks", "status", "first", "kept", "said")


class Group(NamedTuple):
    """The runs of a verdict, in their order."""

    verdict: Verdict
    results: list[Result]

    def row(self, kept: str) -> list[object]:
        """The row of the table."""
        runs = sum(it.run.size for it in self.results)
        disks = len({it.digest for it in self.results})
        first = self.results[0].run.name
        return [runs, disks, self.verdict.status, first, kept, self.verdict.said]


def groups_of(results: Iterable[Result]) -> list[Group]:
    """The verdicts in the order in which they came first."""
    found: dict[Verdict, list[Result]] = {}
    for result in results:
        found.setdefault(result.verdict, []).append(result)
    return [Group(verdict, its) for verdict, its in found.items()]


def write_table(file: TextIO, groups: list[Group], kept: list[str]) -> None:
    """Writes the table."""
    rows = csv.writer(file, Tabs)
    rows.writerow(COLUMNS)
    rows.writerows(group.row(path) for group, path in zip(groups, kept))


def keep(folder: str, result: Result, image: Image) -> str:
    """Keeps the image of a run, and its bundle beside it. Each has its name once it is whole."""
    os.makedirs(folder, exist_ok=True)
    path = os.path.join(folder, result.run.name)
    whole(f"{path}.img", image.save)
    whole(f"{path}.bundle", lambda beside: write_text(beside, result.run.text()))
    return f"{path}.img"


def whole(path: str, write: Callable[[str], None]) -> None:
    """Writes a file beside its name, and gives it the name then."""
    beside = f"{path}.{os.getpid()}"
    try:
        write(beside)
        os.replace(beside, path)
    except OSError as error:
        raise Fault(Place(path, 0), error.strerror) from error
    finally:
        if os.path.exists(beside):
            os.remove(beside)


def write_text(path: str, text: str) -> None:
    """Writes a bundle."""
    with open(path, "w", encoding="ascii", errors="surrogateescape", newline="") as file:
        file.write(text)
