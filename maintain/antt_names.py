"""antt_names: the part that maintain/unreached reads files by: items of .antt files, `use` lines,
and names.

A name in antt is a run of characters other than spaces and `( ) { } . ; , @ "`; a path is names
with dots between them. A module is named as antt does, `Rattle.lab_text.specs.Numbers`.
"""

from __future__ import annotations

import re
from typing import Match, NamedTuple


class Item(NamedTuple):
    """An item: its name, those of a data's constructors, its first and last line, and its text
    with the sections' heads.
    """

    name: str
    cases: list[str]
    first: int
    last: int
    text: str


class Use(NamedTuple):
    """What a `use` line brings in: the name in the file, the module, and the name there, or None
    for the whole module; and whether the file passes it on.
    """

    name: str
    module: str
    item: str | None
    passes: bool


NAME = r'[^\s(){}.;,@"«»]+'
PATH = re.compile(rf"{NAME}(?:\.{NAME})*")
SKIPPED = re.compile(r'"[^"\n]*"|^ *--.*|(?<=\s)--.*', re.M)
USE = re.compile(
    r"^ *(?:pub |ghost |unfoldable )*use ([\w+-]+(?:\.[\w+-]+)*)(?:\.\{([^}]*)\}| as (\w+))?;?",
    re.M,
)
MARKS = {"pattern", "unfoldable", "abbrev", "pub", "axiom", "data", "record", "ruleset"}


def paths(text: str) -> list[list[str]]:
    """The paths that a text names, each as a list of names, without comments and words between
    quotes.
    """
    return [path.split(".") for path in PATH.findall(SKIPPED.sub(" ", text))]


def used(match: re.Match[str]) -> list[Use]:
    """What one `use` line brings in."""
    module, braces, other = match.groups()
    passes = "pub" in match[0].partition("use")[0]
    if braces is None:
        return [Use(other or module.rpartition(".")[2], module, None, passes)]
    words = [word.split() for word in braces.split(",") if word.strip()]
    return [Use(word[-1], module, word[0], passes) for word in words]


def uses(text: str) -> list[Use]:
    """What the `use` lines of a text bring in, in their order."""
    return [use for match in USE.finditer(text) for use in used(match)]


def begun(line: str) -> str:
    """The word with which a line begins behind its marks; none where it begins with a bracket."""
    words = [word for word in PATH.findall(line) if word not in MARKS]
    return words[0] if words and line.lstrip()[0] not in "(){}[]" else ""


def depth(line: str) -> int:
    """The number of spaces before a line."""
    return len(line) - len(line.lstrip())


def is_data(line: str) -> bool:
    """Whether a line begins a data."""
    return "data" in line.split("(")[0].split()[:2]


def cases(lines: list[str]) -> list[str]:
    """The constructors of a data, from its lines."""
    if not is_data(lines[0]):
        return []
    inside = [line for line in lines[1:] if depth(line) == depth(lines[0]) + 2]
    return [name for line in inside if " :" in line for name in line.split(" :")[0].split()]


class Reader:
    """Reads the items of a file, line by line, and keeps the sections that it is in: their margins
    and heads.
    """

    def __init__(self, lines: list[str]) -> None:
        """Reads all lines."""
        self.lines, self.sections = lines, [(0, "")]
        self.first, self.name = 0, ""
        self.found: list[Item] = []
        self.begin = 0
        for number, line in enumerate(lines):
            if number >= self.begin and line.strip() and not line.lstrip().startswith("--"):
                self.read(number, line)
        self.end(len(lines))

    def read(self, number: int, line: str) -> None:
        """Reads a line: it begins an item or a section, or goes on with what is above it."""
        while depth(line) < self.sections[-1][0]:
            self.end(number)
            self.sections.pop()
        word = begun(line)
        if depth(line) > self.sections[-1][0] or word in ("", "unfolding", self.name):
            return
        self.end(number)
        if word == "module":
            self.enter(number)
        elif word != "use":
            self.first, self.name = number, word

    def enter(self, number: int) -> None:
        """Enters the section whose head begins at a line; its margin is that of the line behind
        the head.
        """
        lines = self.lines
        self.begin = 1 + next(
            at for at in range(number, len(lines)) if lines[at].endswith("where")
        )
        inside = next((line for line in lines[self.begin :] if line.strip()), "")
        margin = max(depth(inside), depth(lines[number]) + 1)
        self.sections.append((margin, "\n".join(lines[number : self.begin])))

    def end(self, number: int) -> None:
        """Ends the item that goes on before a line, if one does."""
        if self.name:
            lines = self.lines[self.first : number]
            while not lines[-1].strip() or lines[-1].lstrip().startswith("--"):
                lines.pop()
            text = "\n".join([*(head for _, head in self.sections), *lines])
            self.found.append(
                Item(self.name, cases(lines), self.first, self.first + len(lines) - 1, text)
            )
        self.first, self.name = 0, ""


def items(text: str) -> list[Item]:
    """The items of an .antt file, in their order."""
    return Reader(text.split("\n")).found
