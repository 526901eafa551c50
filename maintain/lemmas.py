"""lemmas: the page of all files of lemmas, by the words at the top of each file of
crates/*/proofs.

Crates come in the order of crates.txt; a file comes behind those of its crate that it uses. What
stands in the folders below, for single functions, is left out. TOP in a link is the repository's
top folder.
"""

from __future__ import annotations

from typing import Iterator

import sources

HEAD = """# Lemmas

The files of lemmas with what each one shows, crate by crate, lowest first; a file stands behind those of its crate \
that it uses. You need not believe any of it: the checker looks at each step. `docs/PROOFS.md` says which facts carry \
the laws.

A file's own words say, behind "Names:", how its lemmas are named. What single functions need beside these, such as \
the invariants of their loops, stands in the folders below each crate's `proofs` and isn't listed."""


def words_of(crate: str, name: str) -> str:
    """The words at the top of one file."""
    return sources.head(sources.lines_of(f"crates/{crate}/proofs/{name}.antt"))


def row(crate: str, name: str) -> str:
    """The row of one file."""
    words = sources.sentence([words_of(crate, name)])
    return f"| [`{name}`](TOP/crates/{crate}/proofs/{name}.antt) | {words} |"


def sections() -> Iterator[str]:
    """The head, and the tables of all crates that have such files."""
    yield HEAD
    for crate in sources.crates():
        rows: list[str] = [row(crate, name) for name in sources.files_in_order(crate, "proofs")]
        if rows:
            yield "\n".join([f"## `{crate}`", "", "| File | What it shows |", "|-|-|", *rows])


def missing() -> Iterator[str]:
    """The files that have no words at their top, one line each."""
    for crate in sources.crates():
        for name in sources.modules(f"crates/{crate}/proofs"):
            if not words_of(crate, name):
                yield f"crates/{crate}/proofs/{name}.antt: no words stand at its top"
