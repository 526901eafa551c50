"""reach: the part of maintain/unreached and maintain/inline that follows names: the .antt files of
the repository, what each item names, and what is reached from the code, the examples and the
folders of proofs for one function.
"""

from __future__ import annotations

import glob
import os
import re
from typing import Dict, Iterator, NamedTuple, Tuple

import antt_names
import sources
from antt_names import Item, Use


class File(NamedTuple):
    """A file: its path, its items, by names its items and what its `use` lines bring in, and all
    that it names.
    """

    path: str
    items: list[Item]
    own: dict[str, list[Item]]
    brought: list[Use]
    words: set[str]


# The files by their modules, and an item by its module and its name.
Known = Dict[str, File]
Key = Tuple[str, str]

# whose lemmas are examples: they are there to be computed, and nothing names them
EXAMPLES = re.compile(
    "crates/(test_examples/proofs/|dmlab_words/proofs/(CommandLine|StudyWords)Laws.antt)"
)
ATTRIBUTE = re.compile(r"^ *#!?\[tactic\((.*)\)\]", re.M)


def text_of(path: str) -> str:
    """The text of a file of the repository."""
    return "\n".join(sources.lines_of(path))


def found(ending: str) -> list[str]:
    """The files below crates/ with this ending, but for what is built."""
    paths = sorted(glob.glob(f"{sources.ROOT}/crates/*/*/**/*{ending}", recursive=True))
    return [
        path
        for path in (os.path.relpath(path, sources.ROOT) for path in paths)
        if "/out/" not in path
    ]


def read(path: str) -> File:
    """An .antt file."""
    text = text_of(path)
    items = antt_names.items(text)
    own: dict[str, list[Item]] = {}
    for item in items:
        for name in (item.name, *item.cases):
            own.setdefault(name, []).append(item)
    words = antt_names.paths(antt_names.USE.sub("", text))
    return File(path, items, own, antt_names.uses(text), {path[0] for path in words})


def module_of(path: str) -> str:
    """A file's name as antt has it."""
    return "Rattle." + path.removeprefix("crates/").removesuffix(".antt").replace("/", ".")


def files() -> Known:
    """All .antt files but the lists of files, by their modules."""
    return {
        module_of(path): read(path) for path in found(".antt") if not path.endswith("/Lib.antt")
    }


def below(known: Known, module: str, path: list[str]) -> Iterator[Key]:
    """The items, with their module, to which a path of names below a module leads; a name may be
    of two data.
    """
    while path and f"{module}.{path[0]}" in known:
        module, path = f"{module}.{path[0]}", path[1:]
    if path and module in known:
        yield from ((module, item.name) for item in known[module].own.get(path[0], ()))
        for use in known[module].brought:
            if use.passes:
                yield from named(known, use, path)


def named(known: Known, use: Use, path: list[str]) -> Iterator[Key]:
    """The items that a path of names leads to, by a `use`."""
    if path[0] == use.name:
        yield from below(known, use.module, [use.item] if use.item else path[1:])


def needs(known: Known, module: str, item: Item) -> Iterator[Key]:
    """The items that an item names."""
    scope: dict[str, list[Use]] = {}
    for use in known[module].brought:
        scope.setdefault(use.name, []).append(use)
    for path in antt_names.paths(item.text):
        yield from below(known, module, path[:1])
        for use in scope.get(path[0], ()):
            yield from named(known, use, path)


def in_attribute(crate: str, text: str) -> Iterator[Key]:
    """The names of an attribute, as modules and items: a path begins with a crate, or with `crate`
    for its own.
    """
    for path in re.findall(r"\w+(?:::[^\s:,()]+)+", text):
        first, *more = path.split("::")
        yield ".".join(["Rattle", crate if first == "crate" else first, *more[:-1]]), more[-1]


def by_attributes(path: str) -> Iterator[Key]:
    """What the attributes of a .rt file name, as modules and items."""
    for attribute in ATTRIBUTE.findall(text_of(path)):
        yield from in_attribute(path.split("/")[1], attribute)


def of_code(known: Known, path: str) -> Iterator[Key]:
    """The items that a .rt file names."""
    text = text_of(path)
    for use in antt_names.uses(text):
        ways = (
            [[use.name]]
            if use.item
            else [way for way in antt_names.paths(text) if way[0] == use.name]
        )
        for way in ways:
            yield from named(known, use, way)
    for module, name in by_attributes(path):
        yield from below(known, module, [name])


def is_root(path: str) -> bool:
    """Whether a file's items count as reached: it stands in a folder for a function, or has
    examples.
    """
    return bool(EXAMPLES.match(path)) or ("/proofs/" in path and path.count("/") > 3)


def roots(known: Known) -> Iterator[Key]:
    """The items that are reached from outside of specs and proofs, or by their place."""
    for path in found(".rt"):
        yield from of_code(known, path)
    for module, file in known.items():
        if is_root(file.path):
            yield from ((module, item.name) for item in file.items)


def reached(known: Known) -> set[Key]:
    """All items that are reached, by their modules and names."""
    seen, waiting = set(), list(roots(known))
    while waiting:
        module, name = waiting.pop()
        if (module, name) not in seen:
            seen.add((module, name))
            waiting += [
                other for item in known[module].own[name] for other in needs(known, module, item)
            ]
    return seen
