"""crates: the page of all crates, by the lines of crates.txt and the first lines of each crate.

A comment `# NAME: WORDS` of crates.txt opens a group. What a crate does stands behind `//!` at the
top of its lib.rt or main.rt.
"""

from __future__ import annotations

import glob
import os
import re
from typing import Iterator

import sources

ARCHITECTURE = "docs/ARCHITECTURE.md"

HEAD = """# Crates

All crates in their groups, lowest first, with what each does and which crates of this repository it names on its line \
of `crates.txt`. `docs/ARCHITECTURE.md` says which one to enter."""


def groups() -> dict[str, dict[str, list[str]]]:
    """The groups of crates.txt by their titles, each with its crates and what they stand on."""
    found: dict[str, dict[str, list[str]]] = {}
    for line in sources.lines_of("crates.txt"):
        name, colon, rest = line.partition(":")
        if name.startswith("# ") and colon:
            group = found.setdefault(sources.sentence([name[2:] + ":" + rest]), {})
        elif name.strip() and colon:
            group[name.split()[0]] = rest.split()
    return found


def libraries() -> dict[str, list[str]]:
    """Each crate with what it stands on."""
    return {crate: below for group in groups().values() for crate, below in group.items()}


def does(crate: str) -> str:
    """What a crate does, by the words behind `//!` at its top: its first paragraph."""
    root = f"crates/{crate}/src/"
    name = "lib.rt" if os.path.isfile(f"{sources.ROOT}/{root}lib.rt") else "main.rt"
    words = []
    for line in sources.lines_of(root + name):
        if not line.startswith("//! "):
            break
        words.append(line[4:].strip())
    return sources.sentence([" ".join(words)])


def row(crate: str, below: list[str], known: set[str]) -> str:
    """The row of one crate."""
    on = ", ".join(f"`{it}`" for it in below if it in known)
    return f"| [`{crate}`](TOP/crates/{crate}) | {does(crate)} | {on} |"


def sections() -> Iterator[str]:
    """The head, and a table for each group."""
    yield HEAD
    known = set(libraries())
    for title, crates in groups().items():
        rows = [row(crate, below, known) for crate, below in crates.items()]
        yield "\n".join(
            [f"## {title}", "", "| Crate | What it does | Stands on |", "|-|-|-|", *rows]
        )


def misplaced() -> Iterator[str]:
    """The crates of crates.txt that stand above one of their libraries."""
    seen: set[str] = set()
    every = libraries()
    for crate, below in every.items():
        for it in below:
            if it in every and it not in seen:
                yield f"crates.txt: {crate} stands before {it}, which it names"
        seen.add(crate)


def stands(crates: list[str], name: str) -> bool:
    """Whether one of the crates has a file of this name, in which * stands for any letters."""
    folder = "specs" if name.endswith(".antt") else "src"
    return any(glob.glob(f"{sources.ROOT}/crates/{it}/{folder}/{name}") for it in crates)


def lost() -> Iterator[str]:
    """The crates and files that a row of the page of the architecture names, and that aren't there."""
    every = libraries()
    for number, line in enumerate(sources.lines_of(ARCHITECTURE), 1):
        if not line.startswith("| "):
            continue
        words = re.findall(r"`([^`]+)`", line)
        crates = [it for it in words if re.fullmatch(r"(?:lab|law|dmlab|test)(?:_\w+)?", it)]
        for it in crates:
            if it not in every:
                yield f"{ARCHITECTURE}:{number}: there is no crate {it}"
        for it in words:
            if re.fullmatch(r"[\w*]+\.(?:rt|antt)", it) and not stands(crates, it):
                yield f"{ARCHITECTURE}:{number}: none of the row's crates has {it}"


def missing() -> Iterator[str]:
    """What is wrong with the lists of crates, one line each."""
    yield from misplaced()
    for crate in libraries():
        if not does(crate):
            yield f"crates/{crate}: its first lines don't say what it does"
    yield from lost()
