"""progress: shows on a terminal how far a tool is, by one line that is wiped at the end. tqdm draws
the line if Python has it (Debian's python3-tqdm). If not, the line has the same in words.
"""

from __future__ import annotations

import importlib
import os
import sys
import time
from typing import Any, Callable

PER_SECOND = 5
WIPE = "\r\x1b[K"


def left(done: int, total: int, took: float) -> str:
    """When all will be done, if the ones that are left take as long as those before."""
    more = took * (total - done) / done
    at = time.strftime("%H:%M:%S", time.localtime(time.time() + more))
    return f"about {more:.0f} seconds more, until {at}"


class OwnLine:
    """The line in words."""

    def __init__(self, tool: str, unit: str, total: int | None, first: int) -> None:
        """The line of a tool that has done `first` of `total` units."""
        self.tool, self.unit, self.total, self.first = tool, unit, total, first
        self.started = time.monotonic()

    def text(self, done: int, said: str, took: float) -> str:
        """What the line says."""
        many = f"{done} of {self.total}" if self.total else str(done)
        words = [f"{many} {self.unit}", said, f"{took:.1f} seconds"]
        if self.total and done > self.first:
            words.append(left(done - self.first, self.total - self.first, took))
        return f"{self.tool}: {', '.join(words)}"

    def show(self, done: int, said: str) -> None:
        """Shows the line, as much of it as the terminal is wide."""
        width = os.get_terminal_size(sys.stderr.fileno()).columns or 200
        text = self.text(done, said, time.monotonic() - self.started)
        print(f"\r{text[: width - 1]}\x1b[K", end="", file=sys.stderr, flush=True)

    def close(self) -> None:
        """Wipes the line."""
        print(WIPE, end="", file=sys.stderr, flush=True)


class TqdmLine:
    """The line that tqdm draws, which estimates the time that is left, too."""

    def __init__(self, tqdm: Any, tool: str, unit: str, total: int | None, first: int) -> None:
        """The line of a tool that has done `first` of `total` units."""
        self.bar = tqdm.tqdm(
            desc=tool,
            unit=f" {unit}",
            total=total,
            initial=first,
            leave=False,
            file=sys.stderr,
            dynamic_ncols=True,
        )

    def show(self, done: int, said: str) -> None:
        """Shows the line."""
        self.bar.n = done
        self.bar.set_postfix_str(said, refresh=True)

    def close(self) -> None:
        """Wipes the line."""
        self.bar.close()


def line_of(tool: str, unit: str, total: int | None, first: int) -> OwnLine | TqdmLine:
    """The line by tqdm, or in words if there is no tqdm."""
    try:
        tqdm = importlib.import_module("tqdm")
    except ImportError:
        return OwnLine(tool, unit, total, first)
    return TqdmLine(tqdm, tool, unit, total, first)


class Progress:
    """Shows how far a tool is, if standard error is a terminal."""

    def __init__(self, tool: str, unit: str, total: int | None = None, delay: float = 0.0) -> None:
        """The progress of a tool through `total` units, or through any number of them. Nothing is
        shown before `delay` seconds.
        """
        self.words = tool, unit, total
        self.next = time.monotonic() + delay
        self.line: OwnLine | TqdmLine | None = None

    def show(self, done: int, said: Callable[[], str]) -> None:
        """Shows how many are done and what else is said, which is asked for only then: five times
        a second at most, and at the last one.
        """
        now = time.monotonic()
        if (now < self.next and done != self.words[2]) or not sys.stderr.isatty():
            return
        self.next = now + 1 / PER_SECOND
        if not self.line:
            self.line = line_of(*self.words, done)
        self.line.show(done, said())

    def wipe(self) -> None:
        """Wipes the line."""
        if self.line:
            self.line.close()
        self.line = None
