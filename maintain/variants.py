"""variants: the page of the wrong variants of the definitions, by tests/variants.txt.

A block of that file has a variant's name, the file and the definition that it changes, the
examples that refused it when it was last tried, and its replacements. If tests/wrong_variants.sh
was run here, the page has its results. TOP in a link is the repository's top folder.
"""

from __future__ import annotations

import os
import re
from typing import Iterator, NamedTuple

import sources

HEAD = """# Wrong variants of the definitions

A wrong definition would make the proofs about it worth nothing. So the checker computes examples through the \
definitions: whole runs with the report that they must give, histories that must be refused, what a read has \
recorded in the middle of a run, what is found in runs and of single answers, and what a trace tells. Each variant below is one wrong replacement in one definition. It was put in place of \
the right text, and the examples were checked: those named refused it. "And 1 more" counts the others. \
`tests/wrong_variants.sh` tries all variants again."""
# What tests/wrong_variants.sh found here.
RESULTS = f"{sources.ROOT}/out/variants/results.txt"
# The crates whose definitions have variants.
CRATES = (
    "lab_model",
    "law_reads_recorded",
    "lab_next",
    "lab_watch",
    "lab_findings",
    "lab_trace",
    "lab_sweep",
)


class Variant(NamedTuple):
    """A variant: its name, the file and the definition that it changes, and the examples that
    refuse it.
    """

    name: str
    file: str
    definition: str
    refused: str


def told(examples: list[str]) -> str:
    """Some examples as the page has them: two at most, and how many more."""
    more = len(examples) - 2
    return ", ".join(examples[:2]) + (f" and {more} more" if more > 0 else "")


def results() -> dict[str, str]:
    """What refused each variant that tests/wrong_variants.sh tried here; an empty text if nothing
    did.
    """
    if not os.path.exists(RESULTS):
        return {}
    with open(RESULTS, encoding="utf-8") as file:
        rows = [line.rstrip("\n").split("\t") for line in file]
    return {name: told(re.findall(r"\w+\.\w+", text)) for name, _, text in rows}


def read() -> list[Variant]:
    """The variants of tests/variants.txt."""
    found, tried = [], results()
    for block in "\n".join(sources.lines_of("tests/variants.txt")).strip().split("\n\n"):
        said = dict(re.findall(r"^(variant|in|refused by): (.*)$", block, re.M))
        file, definition = said["in"].split()
        refused = tried.get(said["variant"], said.get("refused by", ""))
        found.append(Variant(said["variant"], file, definition, refused))
    return found


def path_of(file: str) -> str:
    """The path of a file of definitions, which is named with its crate where several have one."""
    if "/" in file:
        crate, name = file.split("/")
        return f"crates/{crate}/specs/{name}.antt"
    homes = [crate for crate in CRATES if file in sources.modules(f"crates/{crate}/specs")]
    return f"crates/{homes[0]}/specs/{file}.antt"


def row(variant: Variant) -> str:
    """The row of a variant."""
    refused = re.sub(r"(\w+\.\w+)", r"`\1`", variant.refused) or "**none**"
    return f"| {variant.name} | `{variant.definition}` | {refused} |"


def sections() -> Iterator[str]:
    """The head, the variants file by file, and their number."""
    by_file: dict[str, list[Variant]] = {}
    for variant in read():
        by_file.setdefault(variant.file, []).append(variant)
    yield HEAD
    for file, found in by_file.items():
        path = path_of(file)
        title = f"## [`{file}`](TOP/{path})\n\n{sources.head(sources.lines_of(path))}"
        table = ["| Variant | Definition | Examples that refuse it |", "|-|-|-|", *map(row, found)]
        yield title + "\n\n" + "\n".join(table)
    yield f"{sum(map(len, by_file.values()))} variants."
