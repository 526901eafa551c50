"""tab_text: reads and writes tab-separated text by csv. Nothing in it is quoted, and a line ends by a
newline alone.
"""

from __future__ import annotations

import csv
import io
from typing import Iterable

from dmlab_tools.fio_logs import Fault, Place


class Tabs(csv.Dialect):
    """The form of the text."""

    delimiter, lineterminator = "\t", "\n"
    quoting, quotechar = csv.QUOTE_NONE, None


def columns_of(place: Place, line: str) -> list[str]:
    """The columns of a line, which has no newline."""
    if "\r" in line:
        raise Fault(
            place, "a carriage return in tab-separated text: a line ends by a newline alone"
        )
    try:
        return next(csv.reader([line], Tabs)) or [""]
    except csv.Error as error:
        raise Fault(place, f"no line of tab-separated text: {error}") from error


def line_of(columns: Iterable[object]) -> str:
    """The line of some columns, with its newline."""
    text = io.StringIO()
    csv.writer(text, Tabs).writerow(columns)
    return text.getvalue()
