#!/usr/bin/env python3
"""tests/tutorial.py: runs the commands of README.md, docs/TUTORIAL.md and docs/RECIPES.md as they are
written, in an empty folder beside the program.

A block of the page that begins with one of the words below is a command. Where the next block
stands right behind it, it is what the command has to write, whole, or the front of it where the
page goes on with `and so on`; of a command that writes a file, what the file has to be. No
file is left but in `out`. fio and dmsetup aren't called. A block behind the name of a bundle is that bundle. One line for each case
that fails, and at the end 'N passed, M failed'.
"""

from __future__ import annotations

import os
import re
import subprocess
import sys
import tempfile
from typing import Iterator, NamedTuple

ROOT = os.path.dirname(os.path.dirname(os.path.abspath(__file__)))
PAGES = ("../README", "TUTORIAL", "RECIPES")
COMMANDS = ("./dmlab ", "tools/", "sed ", "mkdir ", "{ cat ", "python3 ")
BLOCK = re.compile(r"^```\n(.*?)^```$", re.S | re.M)
BUNDLE = re.compile(r"^`(examples/\S+)`:\n\n```\n(.*?)^```$", re.S | re.M)


class Shown(NamedTuple):
    """A command of the page, and what it has to write, or None, and whether that goes on."""

    command: str
    wanted: str | None
    goes_on: bool


def text_of(path: str) -> str:
    """The text of a file of the repository."""
    with open(f"{ROOT}/{path}", encoding="utf-8") as file:
        return file.read()


def other_bundles(page: str) -> list[str]:
    """The names of the bundles that a page shows otherwise than they are."""
    return [it[1] for it in BUNDLE.finditer(page) if text_of(it[1]) != it[2]]


def shown(page: str) -> Iterator[Shown]:
    """The commands of a page."""
    found = list(BLOCK.finditer(page))
    behind: list[re.Match[str] | None] = [*found[1:], None]
    for block, after in zip(found, behind):
        if not block[1].startswith(COMMANDS):
            continue
        between = page[block.end() : after.start()] if after else "the end"
        if after and not between.strip() and not after[1].startswith(COMMANDS):
            yield Shown(block[1], after[1], page[after.end() :].startswith("\n\nand so on"))
        else:
            yield Shown(block[1], None, False)


def written(folder: str, command: str) -> str:
    """What a command writes: to the file that it names last, or to standard output."""
    told = subprocess.run(
        ["bash", "-c", command], cwd=folder, capture_output=True, text=True, timeout=300
    )
    file = re.search(r"> (\S+)\n$", command)
    if told.returncode not in (0, 1, 4 if "--fail" in command else 0):
        return f"status {told.returncode}"
    if not file:
        return told.stdout
    with open(f"{folder}/{file[1]}", encoding="utf-8") as text:
        return text.read()


def fails(it: Shown, text: str) -> bool:
    """Whether the page shows another text of a command than this."""
    if it.wanted is None:
        return text.startswith("status ")
    return not text.startswith(it.wanted) if it.goes_on else text != it.wanted


def run_page(name: str) -> tuple[int, int]:
    """Runs the commands of a page: how many write what it shows, and how many don't."""
    page = text_of(f"docs/{name}.md")
    counts = [0, 0]
    for bundle in other_bundles(page):
        counts[1] += 1
        print(f"{name}: {bundle} is shown otherwise than it is")
    with tempfile.TemporaryDirectory() as folder:
        for link in ("dmlab", "tools", "examples"):
            os.symlink(f"{ROOT}/{link}", f"{folder}/{link}")
        for it in shown(page):
            text = written(folder, it.command)
            counts[fails(it, text)] += 1
            if fails(it, text):
                print(f"{name}: {it.command.splitlines()[0]}: it writes {text[:200]!r}")
        left = sorted({*os.listdir(folder)} - {"dmlab", "tools", "examples", "out"})
        counts[bool(left)] += 1
        if left:
            print(f"{name}: it leaves {', '.join(left)}")
    return counts[0], counts[1]


def main() -> int:
    """Runs each command of both pages, and answers the status."""
    if not os.access(f"{ROOT}/crates/dmlab/out/dmlab", os.X_OK):
        print("the program isn't built: ./build makes it\n0 passed, 1 failed")
        return 1
    counts = [run_page(name) for name in PAGES]
    failed = sum(it[1] for it in counts)
    print(f"{sum(it[0] for it in counts)} passed, {failed} failed")
    return int(failed > 0)


sys.exit(main())
