"""sources: reads crates.txt and the comments of the .antt files, for the other tools of maintain/.

Crates come in the order of crates.txt. A path is counted from the repository's top folder.
"""

from __future__ import annotations

import os
import re
from typing import Callable, Iterable, Iterator, Sequence

ROOT = os.path.dirname(os.path.dirname(os.path.abspath(__file__)))
NAMED = re.compile(
    r"^( *)(?:abbrev pub|unfoldable pub|pub record|pub data|pub abbrev|pub unfoldable) (\S+)"
    r"|^( *)pub (\S+) :"
)


def crates() -> list[str]:
    """The crates' names, lowest first."""
    rows = [line for line in lines_of("crates.txt") if ":" in line and not line.startswith("#")]
    return [line.split(":")[0].split()[0] for line in rows]


def lines_of(path: str) -> list[str]:
    """The lines of a file of the repository."""
    with open(f"{ROOT}/{path}", encoding="utf-8") as file:
        return file.read().split("\n")


def modules(folder: str) -> list[str]:
    """The files of a crate's folder of specs or proofs, in the order of their list; none without a
    list.
    """
    if not os.path.isfile(f"{ROOT}/{folder}/Lib.antt"):
        return []
    return [
        line.split()[2] for line in lines_of(f"{folder}/Lib.antt") if line.startswith("pub mod ")
    ]


def sentence(words: Sequence[str]) -> str:
    """Words of a comment as one sentence of a table's cell."""
    text = " ".join(words).replace("|", "\\|")
    return text[:1].upper() + text[1:]


def head(lines: Iterable[str]) -> str:
    """The words at the top of a file."""
    words = []
    for line in lines:
        if not line.startswith("--"):
            break
        words.append(line[2:].strip())
    return " ".join(words)


def named(line: str) -> str | None:
    """The name of the definition that a line begins, or None. A record's field begins none."""
    found = NAMED.match(line)
    if found is None or (found.group(4) and found.group(3)):
        return None
    name: str = found.group(2) or found.group(4)
    return None if name == "use" else name


def definitions(lines: Iterable[str]) -> Iterator[tuple[str, str]]:
    """Each definition's name and the words right above it, which may be missing."""
    words: list[str] = []
    for line in lines:
        bare = line.strip()
        if bare.startswith("-- "):
            words = [] if bare.startswith("-- --") else words + [bare[3:]]
            continue
        name = named(line)
        if name:
            yield name, sentence(words)
        words = []


def put(
    item: str,
    items: list[str],
    needs: Callable[[str], set[str]],
    found: list[str],
    above: tuple[str, ...] = (),
) -> None:
    """Puts an item behind those that it needs and that aren't put yet; what stands above it waits."""
    needed = needs(item)
    for other in items:
        if other in needed and other not in (*found, *above, item):
            put(other, items, needs, found, (*above, item))
    found.append(item)


def ordered(items: list[str], needs: Callable[[str], set[str]]) -> list[str]:
    """The items in their order, but each behind those among them that it needs."""
    found: list[str] = []
    for item in items:
        if item not in found:
            put(item, items, needs, found)
    return found


def neighbours(crate: str, part: str, name: str) -> set[str]:
    """The files of a crate's specs or proofs that one of them uses."""
    using = re.compile(rf"use Rattle\.{crate}\.{part}\.(\w+)")
    rows = [using.match(line) for line in lines_of(f"crates/{crate}/{part}/{name}.antt")]
    return {found[1] for found in rows if found}


def files_in_order(crate: str, part: str) -> list[str]:
    """A crate's files of specs or of proofs, each behind those of them that it uses."""
    return ordered(modules(f"crates/{crate}/{part}"), lambda name: neighbours(crate, part, name))
