#!/usr/bin/env python3
"""tests/kernel/wrong_answers.py

Changes one answer in each random transcript and counts what tools/against_kernel says of it: `new`
if it lists a difference that no entry of docs/KERNEL.md tells of, `known` if all that differs
passes for an entry, `same` if the change makes it dmlab's answer. It takes some seconds, and wants
the program.
"""

from __future__ import annotations

import collections
import os
import random
import re
import sys

sys.dont_write_bytecode = True
HERE = os.path.dirname(os.path.abspath(__file__))
sys.path.insert(0, os.path.join(HERE, "..", "..", "tools"))
from dmlab_tools import kernel_compare
from dmlab_tools.kernel_kept import Kept, read_kept

ANSWER = re.compile(r"([0-9]+) (read|write|trim|sync|datasync) (.*)")


def other_bytes(draw: random.Random, runs: str) -> str:
    """The bytes of a read, of which one run has another value."""
    parts = runs.split()
    at = draw.randrange(len(parts))
    count, value = parts[at].split("x")
    parts[at] = f"{count}x{(int(value, 16) + draw.randrange(1, 256)) % 256:02x}"
    return " ".join(parts)


def other_answer(draw: random.Random, kind: str, answer: str) -> str:
    """Another answer to an operation."""
    if answer == "EIO":
        return "512x77" if kind == "read" else "ok"
    return other_bytes(draw, answer) if kind == "read" and draw.random() < 0.5 else "EIO"


def changed(it: Kept) -> list[str]:
    """A transcript in which one answer is changed, which the scenario's name decides."""
    draw, lines = random.Random(it.name), list(it.transcript)
    at = draw.choice([at for at, line in enumerate(lines) if ANSWER.fullmatch(line)])
    number, kind, answer = lines[at].split(" ", 2)
    lines[at] = f"{number} {kind} {other_answer(draw, kind, answer)}"
    return lines


def main() -> None:
    """Judges all, and tells the counts."""
    found: collections.Counter[str] = collections.Counter()
    for it in read_kept(os.path.join(HERE, "random.txt")):
        verdict = kernel_compare.judge(it.text, "", changed(it))
        found[verdict.kind] += 1
        if verdict.kind != "new":
            print(f"{it.name}: {verdict.text}", flush=True)
    print(", ".join(f"{count} {kind}" for kind, count in sorted(found.items())))


if __name__ == "__main__":
    main()
