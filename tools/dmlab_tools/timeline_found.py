"""timeline_found: the findings of a run, as `dmlab sim` writes them, each with its operation, and
the faults of a trace without them, for tools/timeline. timeline_why.py says why each is one.
"""

from __future__ import annotations

import re
from typing import NamedTuple, NoReturn

from dmlab_tools.fio_logs import Fault, Place
from dmlab_tools.sweep_found import NAMES, ROW, ROW_NAMES
from dmlab_tools.tab_text import columns_of
from dmlab_tools.timeline_layout import Bar
from dmlab_tools.trace_bios import Bio, Bios, fate_of
from dmlab_tools.trace_rows import read_text

HEAD = ROW_NAMES.decode().removesuffix("\n")
# The look of each finding, and what the legend says of it.
FOUND = {
    "eio": ("EIO", "EIO"),
    "lost": ("lost", "ok but lost"),
    "changed": ("changed", "ok with a changed byte"),
    "corrupt": ("corrupt", "ok but corrupt"),
    "stale": ("stale", "ok but stale"),
    "misplaced": ("misplaced", "ok but misplaced"),
    "broken-sync": ("broken-sync", "a broken sync"),
}


# The columns that name the operation whose bytes went another way, by the finding.
CAUSES = {"stale": "wanted", "broken-sync": "wanted", "corrupt": "found", "misplaced": "found"}


class Found(NamedTuple):
    """A finding: its word, the operation's bio, the row's columns, the bio of the operation whose
    bytes went another way, if another one's did, and a sentence that says why.
    """

    word: str
    bio: Bio
    row: dict[str, str]
    cause: Bio | None
    why: str = ""


def origin_of(word: str) -> tuple[int, int] | None:
    """The log and the line that a column names, or nothing."""
    found = re.fullmatch(r"([0-9]+)\.([0-9]+)(?:\+[0-9]+)?", word)
    return (int(found[1]), int(found[2])) if found else None


def refuse(place: Place, why: str) -> NoReturn:
    """Refuses a row."""
    raise Fault(place, why)


def rows_in(path: str) -> list[tuple[Place, dict[str, str]]]:
    """The rows of findings in a file, as columns by their names, behind the line of the names."""
    lines = read_text(path)
    if HEAD not in lines:
        refuse(Place(path, 0), "no findings: no line has the names of their columns")
    first = lines.index(HEAD) + 1
    rows = []
    for number, line in enumerate(lines[first:], first + 1):
        if line == "== history" or not line:
            break
        if not ROW.fullmatch(f"{line}\n".encode("ascii", "replace")):
            refuse(Place(path, number), "not a row of a finding")
        place = Place(path, number)
        rows.append((place, dict(zip(NAMES, columns_of(place, line)))))
    return rows


def is_of(row: dict[str, str], bio: Bio) -> bool:
    """Whether a row tells an operation of the trace."""
    sectors = "-" if bio.kind == "flush" else "{}+{}".format(*bio.sectors)
    if not bio.answered or (row["device"], row["sectors"]) != (bio.device, sectors):
        return False
    took = bio.answered.clock - bio.made.clock
    moments = (row["issued"], row["took"]) == (str(bio.made.clock), str(took))
    is_so = (row["finding"] == "eio") == (bio.result() == "EIO")
    return moments and is_so and row["kind"] == bio.made.happened


def found_of(row: dict[str, str], bio: Bio, roots: dict[tuple[int, int], Bio]) -> Found:
    """The finding of a row."""
    column = CAUSES.get(row["finding"])
    origin = origin_of(row[column]) if column else None
    return Found(row["finding"], bio, row, roots.get(origin) if origin else None)


def read_found(path: str, bios: Bios) -> list[Found]:
    """The findings in a file, which have to be of one seed and of the trace's operations."""
    roots = {bio.origin: bio for bio in bios.roots}
    found, rows = [], rows_in(path)
    for place, row in rows:
        seed, first = row["seed"], rows[0][1]["seed"]
        if seed != first:
            refuse(place, f"a finding of seed {seed} behind those of seed {first}")
        bio = roots.get(origin_of(f"{row['log']}.{row['line']}") or (0, 0))
        if bio is None or not is_of(row, bio):
            why = f"the trace has no such answer to line {row['line']} of log {row['log']}"
            refuse(place, why)
        found.append(found_of(row, bio, roots))
    return found


def faults_of(bios: Bios) -> list[Found]:
    """What a trace alone tells of wrong answers: failures, lost writes and trims, and changed
    bytes.
    """
    words = {"EIO": "eio", "lost": "lost", "changed": "changed"}
    told = ((bio, words.get(fate_of(bio), "")) for bio in bios.roots)
    found = [Found(word, bio, {}, None) for bio, word in told if word and is_fault(bio, word)]
    return sorted(found, key=answer_of)


def is_fault(bio: Bio, word: str) -> bool:
    """Whether this is wrong with an operation by itself. A sync that was dropped isn't."""
    return word != "lost" or bio.kind != "flush"


def answer_of(it: Found) -> int:
    """The place of the answer of a finding's operation."""
    return it.bio.answered.place if it.bio.answered else 0


def sentence(it: Found) -> str:
    """What a finding is, and why."""
    return f"{it.word}: {it.why}"


def marks(found: list[Found]) -> dict[str, list[Bar]]:
    """For each kind of finding its marks, each at the answer."""
    bars: dict[str, list[Bar]] = {}
    for it in found:
        at = answer_of(it) - 1
        bar = Bar(at, at, FOUND[it.word][0], (it.bio.made.place, at + 1), sentence(it))
        bars.setdefault(it.word, []).append(bar)
    return {word: sorted(bars[word]) for word in FOUND if word in bars}
