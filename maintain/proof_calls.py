"""proof_calls: the part of maintain/shorten, maintain/shorten_parts and maintain/inline that reads
proofs, lays out calls of tactics in their place, and asks a check which of them it refuses.
"""

from __future__ import annotations

import glob
import os
import re
import subprocess
import sys
from typing import Iterable, Iterator, NamedTuple

import antt_names


class Proof(NamedTuple):
    """A proof: its file, its name, its first line, its lines, the words and the text of each
    clause, and what it cites.
    """

    path: str
    name: str
    first: int
    lines: list[str]
    clauses: list[tuple[list[str], str]]
    cites: list[str]


class Change(NamedTuple):
    """What is tried in place of a proof: its lines, and the `use` lines that they need."""

    proof: Proof
    lines: list[str]
    uses: Iterable[str]


# words before a name that tell a definition
MARKS = antt_names.MARKS - {"pub"}
# the most signs of a line
WIDE = 100
# what a check says of a proof that it refuses, and not of one that it left alone behind such a one
REFUSED = re.compile(
    r"^\./(proofs/[^:]+):(\d+):\d+: error: (?!\d+ declarations? that depends? on)", re.M
)
# where the lists of std are brought in from
FROM = {
    "rules": "Rattle.std.proofs.Common",
    "arith": "Rattle.std.proofs.Common",
    "nat_tests": "Rattle.std.proofs.lemmas.Bool.Decides",
}
# where files take them from that cite the machine's definitions
COMMON = "Rattle.lab_model.proofs.Common"
# a proof that is one call with a list
CALL = re.compile(r"= (search|grind) \(([^()]*)\)$")


def atoms(text: str) -> list[str]:
    """The words of a text, where what stands in brackets is one word with what it touches."""
    found: list[str] = []
    depth, begun = 0, None
    for at, sign in enumerate(text + " "):
        if sign.isspace() and depth == 0:
            if begun is not None:
                found.append(" ".join(text[begun:at].split()))
            begun = None
        else:
            begun = at if begun is None else begun
            depth += (sign in "([{") - (sign in ")]}")
            if depth < 0:
                return found + ([text[begun:at]] if at > begun else [])
    return found


def parted(lines: list[str]) -> tuple[list[str], str] | None:
    """The words before the `=` of a clause, and the text behind it."""
    text, depth = "\n".join(lines), 0
    for at, sign in enumerate(text):
        depth += (sign in "([{") - (sign in ")]}")
        if (
            sign == "="
            and depth == 0
            and text[at - 1].isspace()
            and text[at + 1 : at + 2].isspace()
        ):
            return atoms(text[:at]), text[at + 1 :]
    return None


def starts(lines: list[str], name: str) -> Iterator[int]:
    """The lines with which the clauses of a lemma begin."""
    depth = antt_names.depth(lines[0])
    for at, line in enumerate(lines):
        if (
            antt_names.depth(line) == depth
            and line.split()[:2] != [name, ":"]
            and line.split()[:1] == [name]
        ):
            yield at


def cited(text: str, own: str, scope: set[str]) -> list[str]:
    """The lemmas that a proof cites: those of other files' proofs, and of its own file."""
    words = [path[0] for path in antt_names.paths(text)]
    local = set(re.findall(r"^ +(\S+)(?: [^=\n]*)? :", text, re.M)) | {own}
    return [word for word in dict.fromkeys(words) if word in scope and word not in local]


def scope_of(text: str) -> set[str]:
    """The names of lemmas in a file: it is by a dash that a lemma's name is told from a
    definition's.
    """
    brought = {use.name for use in antt_names.uses(text) if use.item and ".proofs." in use.module}
    items = antt_names.items(text)
    lines = text.split("\n")
    own = {item.name for item in items if not set(lines[item.first].split()[:2]) & MARKS}
    return {name for name in brought | own if "-" in name and "◌" not in name}


def proofs(path: str, least: int = 2) -> Iterator[Proof]:
    """The proofs of a file that have at least so many lines."""
    text = open(path, encoding="utf-8").read()
    lines, scope = text.split("\n"), scope_of(text)
    for item in antt_names.items(text):
        own = lines[item.first : item.last + 1]
        heads = list(starts(own, item.name))
        told = [parted(own[a:b]) for a, b in zip(heads, [*heads[1:], len(own)])]
        clauses = [one for one in told if one]
        marked = set(own[0].split()[:2]) & MARKS
        if heads and len(clauses) == len(heads) and not marked and len(own) - heads[0] >= least:
            body = "\n".join(behind for _, behind in clauses)
            yield Proof(
                path,
                item.name,
                item.first + heads[0],
                own[heads[0] :],
                clauses,
                cited(body, item.name, scope),
            )


def laid(words: list[str], tactic: str, names: list[str], depth: int) -> list[str]:
    """A clause that calls a tactic on names, in lines of at most 100 signs."""
    inner = f"({', '.join(names)})" if len(names) > 1 or " " in names[0] else names[0]
    line = " " * depth + f"{' '.join(words)} = {tactic} {inner}"
    if len(line) <= WIDE:
        return [line]
    head, margin = line[: line.index(" = ") + 2], " " * (depth + 4)
    if len(f"{margin}{tactic} {inner}") <= WIDE:
        return [head, f"{margin}{tactic} {inner}"]
    return [head, f"{margin}{tactic} (", *(f"{margin}  {name}," for name in names), f"{margin})"]


def with_uses(lines: list[str], uses: Iterable[str]) -> tuple[list[str], int]:
    """A file's lines with `use` lines in front: those told, and those for the lists that it calls;
    and how many.
    """
    text = "\n".join(lines)
    have = {use.name for use in antt_names.uses("\n".join([text, *uses]))}
    words = {path[0] for path in antt_names.paths(antt_names.USE.sub("", text))}
    homes = {name: COMMON if f"use {COMMON}." in text else FROM[name] for name in FROM}
    new = [*uses, *(f"use {homes[name]}.{{{name}}}" for name in FROM if name in words - have)]
    at = next((at for at, line in enumerate(lines) if not line.startswith("--")), 0)
    return [*lines[:at], *new, *lines[at:]], len(new)


def write(path: str, before: list[str], changes: list[Change]) -> list[tuple[int, int, Change]]:
    """Writes a file with its changes; gives where each of them stands."""
    lines, spans, end = [], [], 0
    for change in sorted(changes, key=lambda one: one.proof.first):
        proof = change.proof
        lines += before[end : proof.first]
        spans.append((len(lines), len(lines) + len(change.lines), change))
        lines += change.lines
        end = proof.first + len(proof.lines)
    uses = dict.fromkeys(line for change in changes for line in change.uses)
    lines, more = with_uses(lines + before[end:], uses)
    with open(path, "w", encoding="utf-8") as file:
        file.write("\n".join(lines))
    return [(a + more, b + more, change) for a, b, change in spans]


def kept(folder: str, groups: list[list[Change]]) -> list[list[Change]]:
    """Those of the groups of changes that a check takes; all of them stand in the files
    afterwards.
    """
    paths = {change.proof.path for group in groups for change in group}
    before = {path: open(path, encoding="utf-8").read().split("\n") for path in paths}
    while True:
        of_file = {
            path: [one for group in groups for one in group if one.proof.path == path]
            for path in before
        }
        spans = {path: write(path, lines, of_file[path]) for path, lines in before.items()}
        places = refused(folder)
        bad = [one for path, line in places for a, b, one in spans.get(path, ()) if a <= line < b]
        if not places or not groups:
            return groups
        groups = [group for group in groups if bad and not any(one in bad for one in group)]


def refused(folder: str) -> list[tuple[str, int]]:
    """The places that a check of the crate refuses, by file and line."""
    rt = os.environ.get("RT", "rt")
    done = subprocess.run(
        [rt, "check", "--jobs", "1", "--allow-holes"], cwd=folder, capture_output=True, text=True
    )
    told = done.stdout + done.stderr
    if not re.search(r"^(holes|logic)=", told, re.M):
        sys.exit(f"the check gave no verdict:\n{told[-2000:]}")
    return [(f"{folder}/{file}", int(line) - 1) for file, line in REFUSED.findall(told)]


def of_crate(folder: str, least: int) -> list[Proof]:
    """The proofs of a crate that have at least so many lines."""
    files = sorted(glob.glob(f"{folder}/proofs/**/*.antt", recursive=True))
    files = [path for path in files if not path.endswith(("/Lib.antt", "/Invariants.antt"))]
    return [proof for path in files for proof in proofs(path, least)]
