"""believe: the page of the definitions that have to be believed, in reading order, part by part.

From the roots of a part it walks the names that definitions use, through crates/*/specs, by the
`use` lines of the files. Names of the toolchain and of ported crates are left out. Crates come in
the order of crates.txt, files behind those that they use, definitions in the order of their file,
in which each stands before it is used. TOP in a link is the repository's top folder.
"""

from __future__ import annotations

import re
import sys
from typing import Iterable, Iterator, NamedTuple

import sources


class Word(NamedTuple):
    """A definition, by its crate, its file of specs and its name; or a type of the code, whose
    file ends with `.rt`.
    """

    crate: str
    file: str
    name: str


class Part(NamedTuple):
    """A part of the page: its title, what stands below the title, and the definitions that it is
    for.
    """

    title: str
    about: str
    roots: tuple[Word, ...]


HEAD = """# The definitions that have to be believed

The definitions behind the statements, in the order in which to read them: each comes after those that it uses, and \
the last ones of a part are those that the part is for. A file may come up in several parts, each time with the \
definitions that are needed there. To use one target alone you may leave out the files of the others. \
`docs/BELIEVE.md` says how to read a definition, and what trusts what."""
PARTS = (
    Part(
        "Part one: the headline",
        "[`Headline`](TOP/crates/law_headline/specs/Headline.antt) says what holds of each run of an accepted "
        "scenario: no event is wrong, the run doesn't hang, it stays within the budget, and each bio is answered "
        "once. Below are the definitions that it uses, and those that they use in turn. It speaks of every type of "
        "target that keeps the laws [`Lawful`](TOP/crates/lab_target/specs/Laws.antt), so what these use stands here "
        "too.",
        (Word("lab_target", "Laws", "Lawful"), Word("law_headline", "Headline", "Headline")),
    ),
    Part(
        "Part two: what bounds a run",
        "[`Bounds`](TOP/crates/law_headline/specs/Bounds.antt) says of each run of an accepted scenario how many "
        "events its state can still take, how often its clock goes on, and how far: so each moment fits 64 bits. It "
        "uses these beside those of part one.",
        (Word("law_headline", "Bounds", "Bounds"),),
    ),
    Part(
        "Part three: what the program writes",
        "[`run`](TOP/crates/dmlab_run/src/program.rt) is the whole program but for its standard streams. What it "
        "says of its words, its input and its output uses these beside those of the parts before. The last ones are "
        "those that it is for: `Runs` has the output, `ConsumesUpTo` the bytes that are read, `IsWords` and "
        "`IsSilent` the ends without an output. `HasOutput`, `OutputIsOne` and `StudyIsOne` say that there is one "
        "output and no other, and `EndsWith` has the exit status. Among them are the six types of target.",
        (
            *(Word("dmlab_run", "Running", name) for name in ("Runs", "IsWords", "IsSilent")),
            Word("dmlab_run", "Moved", "ConsumesUpTo"),
            *(
                Word("law_one_output", "Exact", name)
                for name in ("HasOutput", "OutputIsOne", "StudyIsOne")
            ),
            Word("dmlab", "Ending", "EndsWith"),
        ),
    ),
)
OTHERS = (
    "## The others\n\nThe other {} definitions are in [definitions.md](definitions.md): what single calls answer, "
    "what stores are seen as, and laws beside the headline. What the parts say doesn't hang on them."
)
USE = re.compile(r"(?:pub )?use Rattle\.(\w+)\.specs\.([\w.]+?)(?:\.\{(.*)\}| as (\S+))?$")
CASES = re.compile(r" +([^\s:(){}][^:(){}]*) :")


def bodies(lines: list[str]) -> dict[str, list[str]]:
    """The lines of each definition, with the line that opens the module that it stands in."""
    found: dict[str, list[str]] = {}
    opening: list[str] = []
    name: str | None = None
    for line in lines:
        if line.startswith("module "):
            opening, name = [line], None
        elif begun := sources.named(line):
            name = begun
            found[name] = [line, *(opening if line.startswith(" ") else [])]
        elif name and not line.strip().startswith("--"):
            found[name].append(line)
    return found


class Spec:
    """A file of specs: its definitions, and what the names in it mean."""

    def __init__(self, crate: str, file: str) -> None:
        """Reads the file."""
        self.crate, self.file = crate, file
        lines = sources.lines_of(f"crates/{crate}/specs/{file}.antt")
        self.head = sources.head(lines)
        self.said, self.bodies = dict(sources.definitions(lines)), bodies(lines)
        self.owners = {
            name: owner for owner in self.bodies for name in (*self.cases(owner), owner)
        }
        self.names: dict[str, tuple[str, str, str]] = {}
        self.aliases: dict[str, tuple[str, str]] = {}
        self.passed_on: set[str] = set()
        for line in lines:
            if (found := USE.match(line)) and found[1] in CRATES:
                names = self.take(found[1], found[2], found[3], found[4])
                self.passed_on.update(names if line.startswith("pub ") else [])

    def cases(self, owner: str) -> list[str]:
        """The names of the cases of a type."""
        if "data" not in self.bodies[owner][0].split()[:2]:
            return []
        rows = [CASES.match(line) for line in self.bodies[owner][1:]]
        return [name for row in rows if row for name in row[1].split()]

    def take(self, crate: str, path: str, names: str | None, alias: str | None) -> list[str]:
        """Takes the names of a `use` line, and gives them as they are here."""
        if alias:
            self.aliases[alias] = (crate, path)
        found = []
        for name in names.split(",") if names else []:
            first, _, here = name.strip().partition(" as ")
            self.names[here or first] = (crate, path, first)
            found.append(here or first)
        return found

    def meant(self, word: str) -> Word | None:
        """What a word in the file means, if it is a definition or a type of the code."""
        first, _, rest = word.partition(".")
        if first in self.aliases and rest:
            return found_at(*self.aliases[first], rest.split(".")[0])
        if first in self.names:
            return found_at(*self.names[first])
        return Word(self.crate, self.file, self.owners[first]) if first in self.owners else None

    def uses(self, name: str) -> set[Word]:
        """The definitions and types that a definition uses."""
        words = re.split(r"[\s(){},;]+", " ".join(self.bodies[name]))
        return {found for word in words if (found := self.meant(word))}


def found_at(crate: str, path: str, name: str) -> Word:
    """The definition or the type of the code that a path and a name lead to."""
    if path.startswith("declared."):
        *folders, last = path[len("declared.") :].removesuffix(".TheVariants").split(".")
        return Word(crate, "/".join(folders) + ".rt", last)
    if (crate, path) in SPECS and name in SPECS[crate, path].passed_on:
        return found_at(*SPECS[crate, path].names[name])
    if (crate, path) not in SPECS or name not in SPECS[crate, path].owners:
        sys.exit(f"{name} of {crate}.specs.{path} is no definition")
    return Word(crate, path, SPECS[crate, path].owners[name])


def is_type(word: Word) -> bool:
    """Whether this is a type of the code."""
    return word.file.endswith(".rt")


def needed(roots: Iterable[Word]) -> set[Word]:
    """All that the roots lead to, with the roots."""
    found: set[Word] = set()
    ahead = list(roots)
    while ahead:
        word = ahead.pop()
        if word not in found:
            found.add(word)
            ahead += [] if is_type(word) else SPECS[word.crate, word.file].uses(word.name)
    return found


def type_row(word: Word) -> tuple[str, set[str]]:
    """The row of a type of the code, by the words above it, and the words of its own cases or
    fields.
    """
    path = f"crates/{word.crate}/src/{word.file}"
    begin = re.compile(rf"^pub(?:\(crate\))? (?:enum|struct) {word.name}\b", re.M)
    above, below = begin.split("\n".join(sources.lines_of(path)), 1)
    words: list[str] = []
    for line in reversed(above.rstrip("\n").split("\n")):
        if not line.startswith(("/// ", "#[")):
            break
        words = [line[4:], *words] if line.startswith("/// ") else words
    named = set(re.findall(r"\w+", re.sub(r"//.*", "", below.split("\n}")[0])))
    return f"| [`{word.name}`](TOP/{path}) | {sources.sentence(words)} |", named


def types(words: Iterable[Word]) -> str:
    """The table of a crate's types of the code, each behind those among them that it names."""
    rows = {word.name: type_row(word) for word in sorted(words)}
    order = sources.ordered(list(rows), lambda name: rows[name][1])
    return "\n".join(
        ["| Type of the code | In plain words |", "|-|-|", *(rows[name][0] for name in order)]
    )


def definitions(crate: str, file: str, words: set[Word]) -> str:
    """The table of a file's definitions among some words."""
    spec = SPECS[crate, file]
    rows = [
        f"| `{name}` | {spec.said[name]} |"
        for name in spec.bodies
        if Word(crate, file, name) in words
    ]
    title = f"#### [`{file}`](TOP/crates/{crate}/specs/{file}.antt)"
    return "\n".join([title, "", spec.head, "", "| Definition | In plain words |", "|-|-|", *rows])


def files(crate: str, words: set[Word]) -> list[str]:
    """The files of a crate that have one of these words, each behind those that it uses."""
    return [
        file
        for file in sources.files_in_order(crate, "specs")
        if (crate, file) in {it[:2] for it in words}
    ]


def crate_sections(crate: str, words: set[Word]) -> Iterator[str]:
    """What is read of a crate: its types of the code, then its definitions, file by file."""
    mine = {word for word in words if word.crate == crate}
    if mine:
        yield f"### `{crate}`"
    if any(map(is_type, mine)):
        yield types(filter(is_type, mine))
    for file in files(crate, mine):
        yield definitions(crate, file, mine)


def counted(words: set[Word]) -> str:
    """How many definitions and types of the code these are."""
    of_code = sum(map(is_type, words))
    return f"{len(words) - of_code} definitions and {of_code} types of the code."


def sections() -> Iterator[str]:
    """The head, the parts, and how many definitions are left."""
    yield HEAD
    told: set[Word] = set()
    for part in PARTS:
        words = needed(part.roots) - told
        told |= words
        yield f"## {part.title}\n\n{part.about} {counted(words)}"
        for crate in CRATES:
            yield from crate_sections(crate, words)
    left = sum(len(spec.said) for spec in SPECS.values()) - sum(not is_type(word) for word in told)
    yield OTHERS.format(left)


def headline_row(crate: str, words: set[Word]) -> str:
    """The row of docs/BELIEVE.md for a crate: its files that the headline needs, in reading order."""
    links = [f"[{file}](../crates/{crate}/specs/{file}.antt)" for file in files(crate, words)]
    return f"| `{crate}` | {', '.join(links)} |" if links else ""


def missing() -> Iterator[str]:
    """What docs/BELIEVE.md hasn't of the headline's files, one line each."""
    words = needed(PARTS[0].roots)
    text = "\n".join(sources.lines_of("docs/BELIEVE.md"))
    of_code = sum(map(is_type, words))
    for told in (
        f"needs {len(words) - of_code} definitions",
        f"name {of_code} types of the program's code",
    ):
        if told not in text:
            yield f"docs/BELIEVE.md: it doesn't say that the headline's files {told}"
    rows = [row for row in (headline_row(crate, words) for crate in CRATES) if row]
    page = [line for line in text.split("\n") if "/specs/" in line and line.startswith("| ")]
    yield from (f"docs/BELIEVE.md: there is no row {row}" for row in rows if row not in page)
    yield from (
        f"docs/BELIEVE.md: the headline doesn't need {row}" for row in page if row not in rows
    )
    if sorted(page) == sorted(rows) and page != rows:
        yield "docs/BELIEVE.md: the rows of the headline's files aren't in reading order"


CRATES = sources.crates()
SPECS = {
    (crate, file): Spec(crate, file)
    for crate in CRATES
    for file in sources.modules(f"crates/{crate}/specs")
}
