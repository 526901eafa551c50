"""laws: the page of all laws: functions without a body, by what stands above each of them.

Their contracts are checked as those of all functions. Crates come in the order of crates.txt.
"""

from __future__ import annotations

import glob
import re
from typing import Iterator, NamedTuple

import sources

HEAD = """# Laws

Each law is a public function that does nothing; its contract is the statement. So the checker proves it as it proves \
every contract. The statements stand in the `specs` of the same crate."""

LAW = re.compile(
    r"((?:^/// .*\n)*)(?:^#\[.*\n)*^pub fn (\w+)(?:<[^>]*>)?\(\)\n((?:^    ensures .*\n)+)^\{\}$",
    re.M,
)


class Law(NamedTuple):
    """A law: its function, what it says, and the statements of its clauses."""

    name: str
    words: str
    statements: list[str]


def laws(crate: str) -> Iterator[Law]:
    """The laws of a crate, file by file."""
    for path in sorted(glob.glob(f"{sources.ROOT}/crates/{crate}/src/*.rt")):
        with open(path, encoding="utf-8") as file:
            text = file.read()
        for above, name, clauses in LAW.findall(text):
            words = [line[4:].strip() for line in above.splitlines()]
            yield Law(name, sources.sentence(words), re.findall(r"\{ *(\w+)", clauses))


def row(crate: str, law: Law) -> str:
    """The row of one law."""
    said = ", ".join(f"`{it}`" for it in law.statements)
    return f"| {said} | `{crate}::{law.name}` | {law.words} |"


def sections() -> Iterator[str]:
    """The head, and a table of all laws."""
    yield HEAD
    rows = [row(crate, law) for crate in sources.crates() for law in laws(crate)]
    yield "\n".join(["| Statement | Public function | In words |", "|-|-|-|", *rows])


def missing() -> Iterator[str]:
    """The laws that have no words above them, one line each."""
    for crate in sources.crates():
        for law in laws(crate):
            if not law.words:
                yield f"crates/{crate}: nothing says what the law {law.name} is"
