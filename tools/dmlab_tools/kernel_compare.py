"""Compares what Linux did with a bundle and what dmlab does with it.

A transcript has lines behind # that tell which Linux it was, and then the report's lines. The
budget's line and the last line of dmlab's report have no counterpart in Linux and are left out.
Where dmlab refuses a bundle, the two agree if Linux refuses the same line of the script before any
other: the line itself, or the first that uses the table.

A folder's file `differs` records a difference: the names of entries of docs/KERNEL.md, and the
lines that differ, dmlab's behind `< ` and Linux's behind `> `.
"""

from __future__ import annotations

import functools
import os
import re
import subprocess
import tempfile
from typing import NamedTuple

from dmlab_tools import (
    kernel_entries,
    kernel_lines,
    kernel_moments,
    kernel_orders,
    kernel_refusals,
    kernel_taken,
)
from dmlab_tools.kernel_lines import Pair
from dmlab_tools.kernel_scene import Scene

ROOT = os.path.dirname(os.path.dirname(os.path.dirname(os.path.abspath(__file__))))
# How many seeds are asked for Linux's report, at first and in all, and how many different reports
# are looked at.
FEW, SEEDS, MOST = 32, 512, 64


class Verdict(NamedTuple):
    """How two reports compare: same, known or new, the words for it, and the lines that differ."""

    kind: str
    text: str
    lines: list[str]


@functools.lru_cache(None)
def program() -> str:
    """The program: the proved one, or the unproved one that ./dmlab keeps, or ./dmlab itself."""
    folder = os.path.join(ROOT, "crates", "dmlab", "out")
    if not os.access(os.path.join(folder, "dmlab"), os.X_OK):
        subprocess.run([os.path.join(ROOT, "dmlab"), "--help"], capture_output=True, check=False)
    for name in ("dmlab", "dmlab.unproved"):
        if os.access(os.path.join(folder, name), os.X_OK):
            return os.path.join(folder, name)
    return os.path.join(ROOT, "dmlab")


def ask(words: list[str], text: str = "") -> str:
    """What the program writes."""
    return subprocess.run(
        [program(), *words], input=text, capture_output=True, text=True, check=False
    ).stdout


@functools.lru_cache(None)
def prompt_words() -> list[str]:
    """`--prompt`, where the program has it: under it no seed lets the clock go on too early."""
    told = subprocess.run(
        [program(), "sim", "--help"], capture_output=True, text=True, check=False
    )
    return ["--prompt"] if "--prompt" in told.stdout + told.stderr else []


def kept(text: str) -> list[str]:
    """The lines of a report or of a transcript that are compared."""
    return [
        line
        for line in text.splitlines()
        if line and not line.startswith(("#", "accepted ", "done "))
    ]


def dmlab_report(text: str, seed: int = 0) -> list[str]:
    """The lines of dmlab's report by a seed."""
    return kept(ask(["sim", *prompt_words(), "--seed", str(seed)], text))


def is_refused(mine: list[str]) -> bool:
    """Whether dmlab's report is a refusal."""
    return bool(mine) and mine[0].startswith("refused ")


def unlike(mine: list[str], theirs: list[str]) -> list[str]:
    """The lines that differ, as diff tells them."""
    with tempfile.TemporaryDirectory() as folder:
        paths = [os.path.join(folder, name) for name in ("dmlab", "linux")]
        for path, lines in zip(paths, (mine, theirs)):
            with open(path, "w", encoding="ascii") as file:
                file.writelines(line + "\n" for line in lines)
        told = subprocess.run(["diff", *paths], capture_output=True, text=True, check=False).stdout
    return [line for line in told.splitlines() if line.startswith(("< ", "> "))]


def first_use(text: str, table: str) -> int | None:
    """The first line of the script that uses a table."""
    script = kernel_orders.named(kernel_orders.read_parts(text), "script")[0]
    return next(
        (number for number, words in kernel_orders.numbered(script) if words[-1] == table), None
    )


def refused_line(text: str, mine: list[str]) -> int | None:
    """The line of the script at which dmlab's refusal stops a bundle, if it stops one there."""
    words = mine[0].split() if mine else []
    if words[:2] == ["refused", "script"]:
        return int(words[2])
    if words[:2] == ["refused", "table"]:
        return first_use(text, words[2])
    return None


def agrees(text: str, mine: list[str], theirs: list[str]) -> bool:
    """Whether the two did the same."""
    if mine == theirs:
        return True
    refused = re.search(r"^script ([0-9]+) refused", "\n".join(theirs), re.M)
    return bool(is_refused(mine) and refused and int(refused[1]) == refused_line(text, mine))


def read_differs(folder: str) -> tuple[list[str], list[str]]:
    """The entries and the lines that a folder records."""
    path = os.path.join(folder, "differs")
    if not os.path.exists(path):
        return [], []
    with open(path, encoding="ascii") as file:
        lines = [line.rstrip("\n") for line in file if line.strip()]
    return [line for line in lines if line[0] not in "<>"], [
        line for line in lines if line[0] in "<>"
    ]


def named_entries(entries: list[str]) -> str:
    """Entries as the page writes them."""
    return ", ".join(f"`{entry}`" for entry in entries)


def seeds(text: str) -> list[int]:
    """A seed for each report that dmlab may give, as far as SEEDS seeds show; where the first FEW
    give one report, no more are asked.
    """
    found: list[int] = []
    for count in (FEW, SEEDS):
        told = ask(["sweep", *prompt_words(), "--last", str(count - 1)], text)
        found = sorted(map(int, re.findall(r"^digest .* first=([0-9]+)", told, re.M)))
        if len(found) < 2:
            break
    return found[:MOST]


class Kin(NamedTuple):
    """The report of a seed beside Linux's: the seed, the lines that differ, their moments too, and
    the entries of each.
    """

    seed: int
    pairs: list[Pair]
    entries: list[list[str]]

    def distance(self) -> tuple[int, int]:
        """How many lines no entry tells of, and how many differ."""
        return sum(not it for it in self.entries), len(self.pairs)


def told_pairs(text: str, scene: Scene, transcript: list[str], seed: int) -> kernel_taken.Told:
    """The lines of the report of one seed that Linux's has otherwise, with their entries."""
    theirs = kept("\n".join(transcript))
    pairs = kernel_lines.pairs(scene, dmlab_report(text, seed), theirs)
    pairs += late_pairs(text, scene, Kin(seed, pairs, []), transcript)
    return list(zip(pairs, kernel_entries.all_entries(scene, pairs)))


def kin_of(text: str, scene: Scene, transcript: list[str], seed: int) -> Kin:
    """The report of one seed beside Linux's."""
    told, taken = told_pairs(text, scene, transcript, seed), kernel_taken.taken(text)
    if taken != text:
        other = Scene(taken)
        other.see(transcript)
        told = kernel_taken.joined(told, told_pairs(taken, other, transcript, seed))
    return Kin(seed, [pair for pair, _ in told], [entries for _, entries in told])


def nearest(text: str, scene: Scene, transcript: list[str]) -> Kin:
    """The first seed's report if it is Linux's in common words, or else the nearest of all."""
    best = kin_of(text, scene, transcript, 0)
    for seed in seeds(text) if best.pairs else []:
        best = min(best, kin_of(text, scene, transcript, seed), key=Kin.distance)
    return best


def late_pairs(text: str, scene: Scene, kin: Kin, transcript: list[str]) -> list[Pair]:
    """The lines that both answer in the same way, but at other moments."""
    moments = kernel_moments.of_remarks(transcript)
    if not moments:
        return []
    trace = ask(["trace", *prompt_words(), "--seed", str(kin.seed)], text)
    mine = kernel_moments.of_trace(scene, trace)
    scene.mine, scene.theirs = mine, moments
    told = {pair.key for pair in kin.pairs}
    return [
        Pair(key, scene.words_of(key), *(f"at {it[key] / 1e6:.3f} s" for it in (mine, moments)))
        for key in kernel_moments.unlike(scene, mine, moments)
        if key not in told
    ]


def explained(kin: Kin) -> Verdict:
    """The verdict line by line: what differs, and the entry that says so, or that none does."""
    lines, known, new = [], [], 0
    for pair, entries in zip(kin.pairs, kin.entries):
        known += [entry for entry in entries if entry not in known]
        new += not entries
        place = " ".join([pair.key, *pair.words[1:2]] if pair.words[1:] else [pair.key])
        place = pair.key if pair.key.startswith("script ") else place
        lines += [f"{mark} {place} {it}" for mark, it in zip("<>", pair[2:])]
        lines.append(f"= {named_entries(entries) or 'no entry'}")
    if new:
        count = f"{new} line{'s' if new > 1 else ''}"
        told = f"differs, and no entry of docs/KERNEL.md says so: {count}"
        return Verdict("new", told, lines)
    return Verdict("known", f"differs as docs/KERNEL.md says at {named_entries(known)}", lines)


def refused(text: str, scene: Scene, mine: list[str], theirs: list[str]) -> Verdict:
    """The verdict on a bundle that dmlab refuses."""
    number = refused_line(text, mine)
    refusals = [int(it) for it in re.findall(r"^script ([0-9]+) refused", "\n".join(theirs), re.M)]
    entry = kernel_refusals.entry(scene, mine[0])
    lines = unlike(mine, theirs)
    if entry and not any(it <= (number or 0) for it in refusals):
        return Verdict("known", f"differs as docs/KERNEL.md says at `{entry}`", lines)
    return Verdict("new", "differs, and no entry of docs/KERNEL.md says so", lines)


def judge(text: str, folder: str, transcript: list[str]) -> Verdict:
    """How Linux's transcript and dmlab's report compare."""
    mine, theirs, scene = dmlab_report(text), kept("\n".join(transcript)), Scene(text)
    scene.see(transcript)
    if is_refused(mine) and agrees(text, mine, theirs):
        return Verdict("same", f"Linux refuses it too: {mine[0]}", [])
    entries, recorded = read_differs(folder)
    if entries and recorded and recorded == unlike(mine, theirs):
        told = f"differs as docs/KERNEL.md says at {named_entries(entries)}"
        return Verdict("known", told, recorded)
    if is_refused(mine):
        return refused(text, scene, mine, theirs)
    kin = nearest(text, scene, transcript)
    if kin.pairs:
        return explained(kin)
    by_seed = f" by the seed {kin.seed}" if kin.seed else ""
    is_literal = dmlab_report(text, kin.seed) == theirs
    return Verdict("same", f"the same{'' if is_literal else ' in other words'}{by_seed}", [])
