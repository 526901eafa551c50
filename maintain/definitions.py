"""definitions: the page of all definitions, by the words above each definition of crates/*/specs.

Crates come in the order of crates.txt, files in the order of each specs/Lib.antt, definitions in
the order of their file. TOP in a link is the repository's top folder.
"""

from __future__ import annotations

from typing import Iterator

import sources

HEAD = """# Definitions

Each definition that a contract cites, with one plain sentence, crate by crate, lowest first. The line under a file's \
name says what the file is about and where it comes from. A record's fields and a type's cases have their own words in \
the file.

If the sources are silent, the rule is this project's own: `docs/DECISIONS.md` has the choices. `docs/BELIEVE.md` says \
how to read a definition."""


def table(crate: str, name: str) -> str | None:
    """The table of one file, if it has a definition."""
    lines = sources.lines_of(f"crates/{crate}/specs/{name}.antt")
    rows = [f"| `{word}` | {text} |" for word, text in sources.definitions(lines)]
    title = f"### [`{name}`](TOP/crates/{crate}/specs/{name}.antt)"
    head = [title, "", sources.head(lines), "", "| Definition | In plain words |", "|-|-|"]
    return "\n".join([*head, *rows]) if rows else None


def sections() -> Iterator[str]:
    """The head, and the tables of all crates."""
    yield HEAD
    for crate in sources.crates():
        tables = [table(crate, name) for name in sources.modules(f"crates/{crate}/specs")]
        parts = [part for part in tables if part]
        if parts:
            yield "\n\n".join([f"## `{crate}`", *parts])


def missing() -> Iterator[str]:
    """The definitions that have no sentence above them, one line each."""
    for crate in sources.crates():
        for name in sources.modules(f"crates/{crate}/specs"):
            path = f"crates/{crate}/specs/{name}.antt"
            found = sources.definitions(sources.lines_of(path))
            yield from (
                f"{path}: no sentence stands above `{word}`" for word, text in found if not text
            )
