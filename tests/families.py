#!/usr/bin/env python3
"""tests/families.py: runs bundles that once ran long for their size, each beside a twin without what
made it slow, and holds the instructions of the two runs to one another, by valgrind; holds the
memory of answers of many runs to what is written of them; and runs a bundle of which two million
requests live at once. Without valgrind no instructions are counted. It wants the proved program.
One line for each case that fails, and at the end 'N passed, M failed'.
"""

from __future__ import annotations

import os
import subprocess
import sys

ROOT = os.path.dirname(os.path.dirname(os.path.abspath(__file__)))
PROGRAM = f"{ROOT}/crates/dmlab/out/dmlab"
sys.dont_write_bytecode = True
sys.path.insert(0, f"{ROOT}/tools")
from dmlab_tools.bench_counted import can_count, instructions
from dmlab_tools.bench_families import FAMILIES, Family, held, of_many_runs, spent

COUNTS = {"passed": 0, "failed": 0}


def holds(name: str, is_held: bool, told: str) -> None:
    """Counts a case, and tells of one that fails."""
    COUNTS["passed" if is_held else "failed"] += 1
    if not is_held:
        print(f"{name}: {told}")


def try_family(family: Family) -> None:
    """A family's small bundle beside its twin."""
    dear = instructions(PROGRAM, family.words, family.make(family.small))
    plain = instructions(PROGRAM, family.twin_words, family.make_twin(family.small))
    told = f"{dear} instructions, {dear / plain:.2f} times those without it"
    holds(family.name, dear <= family.most * plain, f"{told}, and {family.most} are allowed")


def try_memory() -> None:
    """The memory of answers, beside their text."""
    few, many = (spent(PROGRAM, ("sim",), of_many_runs(size)) for size in (400, 4000))
    memory, output = many.memory - few.memory, many.output - few.output
    holds("of_many_runs", memory <= 2 * output, f"{memory} bytes for {output} written")


def try_millions() -> None:
    """Eight flushes, each of which becomes 262,144 that are held for an hour. Each log has four
    lines, each of 299,593 requests a beginning and an end, and the script seven commands that are
    events.
    """
    words = [PROGRAM, "sim", "--prompt"]
    run = subprocess.run(words, input=held(6, 0)(8), capture_output=True, text=True)
    steps = 7 + 8 * (4 + 2 * 299593)
    wanted = f"done steps={steps} clock=1 now=3600000000"
    holds("millions", run.stdout.splitlines()[-1:] == [wanted], run.stdout[-200:] + run.stderr)


def main() -> None:
    """Each family beside its twin, the memory of answers, and millions that live."""
    if can_count():
        for family in FAMILIES:
            try_family(family)
    else:
        print("skipped: no valgrind here, so no instructions were counted")
    try_memory()
    try_millions()
    print(f"{COUNTS['passed']} passed, {COUNTS['failed']} failed")


if __name__ == "__main__":
    main()
