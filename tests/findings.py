#!/usr/bin/env python3
"""tests/findings.py: makes small bundles, and looks at what `dmlab sweep` and `dmlab sim` find in
them, from outside.

The bundles are those of finding_bundles.py. Each is traced by some seeds, with and without
--prompt. finding_runs.py follows each trace with disks of its own, and finding_rows.py works out
each row that the program has to write, all columns. Each finding is asked for alone, then all of
them, then some; the counts by line, the totals, the status with --fail, and the report before
the rows of `dmlab sim` are looked at, too. One line for each case that fails, and at the end 'N
passed, M failed'. It wants the proved program. `--bundle N` writes the bundle N, `--count N` tries
the bundles 0 to N-1, too, by several processes, `--program FILE` tries another program.
"""

from __future__ import annotations

import argparse
import collections
import itertools
import multiprocessing
import os
import random
import subprocess
import sys
import time
from typing import Counter, Dict, Iterator, List, NamedTuple, Sequence, Tuple

sys.dont_write_bytecode = True
from finding_bundles import bundle
from finding_rows import HEAD, WORDS, Finding, by_line, findings, row, totals
from finding_runs import Run
from finding_sights import SIGHTS, sights
from finding_tables import Bundle
from small_bundles import DMLAB, Column
from writers import bytes_of, results

# The seeds of a bundle, and of one bundle in twenty.
SEEDS, MANY = 3, 25
# Bundles in which something comes up that is rare: these are tried first.
RARE = "1023 518 318 692 298 627 667 1066 584 199 765 264 328 336 398 416 961 286 425"
# The bundles of the test command behind those, and the seconds after which it begins no other one.
BUNDLES, SECONDS = 250, 36
# The runs of a bundle by their seeds: the findings of each.
Runs = Dict[int, List[Finding]]


class Told(NamedTuple):
    """What the program wrote to standard output and to standard error, and its status."""

    lines: List[str]
    error: List[str]
    status: int


class Case(NamedTuple):
    """A bundle of a number: its text, its parts, the program, and --prompt or no word."""

    program: str
    text: str
    parts: Bundle
    prompt: Tuple[str, ...]

    @property
    def names(self) -> list[str]:
        """The names of the logs."""
        return [name for name, _ in self.parts.logs]

    def told(self, *words: str) -> Told:
        """What the program tells of the bundle by these words."""
        call = [self.program, *words, *self.prompt]
        it = subprocess.run(call, input=self.text, capture_output=True, text=True, check=False)
        return Told(it.stdout.splitlines(), it.stderr.splitlines(), it.returncode)

    def run(self, seed: int) -> Run:
        """The run of a seed, by its trace."""
        rows = self.told("trace", "--seed", str(seed)).lines[1:]
        return Run(self.parts, [Column(*line.split("\t")) for line in rows])


# ---- what has to be written
def rows(runs: Runs, asked: Sequence[str], names: Sequence[str]) -> list[str]:
    """The rows of runs that are asked for."""
    pairs = ((seed, it) for seed, found in runs.items() for it in found)
    return [row(seed, it, names) for seed, it in pairs if it.word in asked]


def asked_of(runs: Runs, asked: Sequence[str]) -> Runs:
    """The findings of runs that are asked for."""
    return {seed: [it for it in found if it.word in asked] for seed, found in runs.items()}


def difference(told: Sequence[str], wanted: Sequence[str]) -> str:
    """The first two lines that differ, or nothing."""
    pairs = itertools.zip_longest(told, wanted, fillvalue="no line")
    return next((f"{it!r}, and not {other!r}" for it, other in pairs if it != other), "")


def flags(asked: Sequence[str]) -> list[str]:
    """The options that ask for findings."""
    return [f"--{word}" for word in asked]


def wrong(name: str, told: Told, lines: Sequence[str], runs: Runs, asked: Sequence[str]) -> str:
    """What is wrong with what the program told of runs, where it was asked for these findings."""
    found = asked_of(runs, asked)
    status = 4 * (name.endswith("--fail") and any(found.values()))
    why = difference(told.lines, lines) or difference(told.error, [totals(found, asked)])
    why = why or (told.status != status) * f"status {told.status}, and not {status}"
    return f"{name} {' '.join(flags(asked))}: {why}" if why else ""


# ---- the cases of a bundle
def sweep_wrong(case: Case, runs: Runs, asked: Sequence[str], *more: str) -> str:
    """What is wrong with a sweep of these runs that is asked for these findings."""
    words = ("--first", str(min(runs)), "--last", str(max(runs)), *flags(asked), *more)
    found = asked_of(runs, asked)
    lines = [HEAD, *rows(runs, asked, case.names)]
    lines = by_line(found, case.names) if "--by-line" in more else lines
    return wrong(" ".join(("sweep", *more)), case.told("sweep", *words), lines, runs, asked)


def sim_wrong(case: Case, seed: int, run: Run, asked: Sequence[str], *more: str) -> str:
    """What is wrong with the report of a run and the rows behind it."""
    found = {seed: list(findings(run))}
    plain = case.told("sim", "--seed", str(seed), "--history").lines
    cut = plain.index("== history")
    lines = [*plain[:cut], HEAD, *rows(found, asked, case.names)]
    lines += plain[cut:] if "--history" in more else []
    told = case.told("sim", "--seed", str(seed), *flags(asked), *more)
    return wrong(" ".join(("sim", *more)), told, lines, found, asked) or report_wrong(plain, run)


def report_wrong(report: list[str], run: Run) -> str:
    """The first read whose bytes in the report aren't those that were worked out of the trace.
    Then this model is wrong, or the trace is.
    """
    told = results(report)
    reads = (it for it in run.answers if it.kind == "read" and it.is_ok)
    wrong_ones = (it for it in reads if bytes_of(told[it.origin]) != [at.data for at in it.answer])
    return next((f"the bytes of {it.origin} are {told[it.origin]}" for it in wrong_ones), "")


def some(draw: random.Random) -> list[str]:
    """Some of the findings."""
    return [word for word in WORDS if draw.random() < 0.5] or [draw.choice(WORDS)]


def case_wrong(number: int, program: str, seen: Counter[str]) -> Iterator[str]:
    """What is wrong with what the program finds in a bundle, each in a line."""
    draw, count, by_prompt = random.Random(number), MANY if number % 20 == 13 else SEEDS, []
    text, first = bundle(number, draw), draw.choice((0, number, 2**64 - count))
    parts = Bundle(text)
    for prompt in ((), ("--prompt",)):
        case = Case(program, text, parts, prompt)
        followed = {seed: case.run(seed) for seed in range(first, first + count)}
        runs = {seed: list(findings(run)) for seed, run in followed.items()}
        by_prompt.append([[(it.word, it.of.origin) for it in found] for found in runs.values()])
        for run, found in zip(followed.values(), runs.values()):
            seen.update(set(sights(run, found)))
        seen.update(["other by another seed"] * (by_prompt[-1].count(by_prompt[-1][0]) < count))
        for word in WORDS if number % 4 == 0 else draw.sample(WORDS, 1):
            yield sweep_wrong(case, runs, [word], *draw.choice(((), ("--fail",))))
        yield sweep_wrong(case, runs, WORDS)
        yield sweep_wrong(case, runs, some(draw), "--fail")
        yield sweep_wrong(case, runs, some(draw), "--by-line")
        yield sweep_wrong(case, runs, WORDS, "--by-line", "--fail")
        seed = draw.choice(list(runs))
        yield sim_wrong(case, seed, followed[seed], some(draw))
        yield sim_wrong(case, seed, followed[seed], WORDS, "--history", "--fail")
    seen.update(["other by --prompt"] * (by_prompt[0] != by_prompt[1]))


def tried(words: tuple[int, str]) -> tuple[int, str, Counter[str]]:
    """The first thing that is wrong with a bundle, or nothing, and what was seen in it."""
    number, program = words
    seen: Counter[str] = collections.Counter()
    try:
        return number, next(filter(None, case_wrong(number, program, seen)), ""), seen
    except Exception as error:  # an unexpected text of the program is a failure of this bundle
        return number, f"{type(error).__name__}: {error}", seen


def try_all(program: str, count: int, jobs: int, seconds: float) -> int:
    """Tries bundles until the time is over, says what came up, and answers the status."""
    begun, seen, failed, passed = time.monotonic(), collections.Counter[str](), 0, 0
    numbers = dict.fromkeys((*map(int, RARE.split()), *range(count)))
    with multiprocessing.Pool(jobs) as pool:
        for number, why, sights_of in pool.imap(tried, ((it, program) for it in numbers)):
            print(f"bundle {number}: {why}\n" * bool(why), end="", flush=True)
            failed, passed = failed + bool(why), passed + (not why)
            seen.update(sights_of)
            if time.monotonic() - begun > seconds:
                pool.terminate()
                break
    print(f"bundles: {failed + passed}")
    for sight in SIGHTS:
        print(f"seen: {sight}: {seen[sight]}")
    missing = sum(not seen[sight] for sight in SIGHTS)
    print(f"{passed + len(SIGHTS) - missing} passed, {failed + missing} failed")
    return int(failed + missing > 0)


def main() -> int:
    """Writes the bundle that the words name, or tries the bundles, and answers the status."""
    words = argparse.ArgumentParser(description="Looks at what dmlab finds in small bundles.")
    words.add_argument("--bundle", type=int, metavar="N", help="write the bundle of this number")
    words.add_argument("--count", type=int, metavar="N", help="try so many, by all processors")
    words.add_argument("--jobs", type=int, metavar="N", help="by so many processes")
    words.add_argument("--program", metavar="FILE", default=DMLAB, help="try this program")
    it = words.parse_args()
    if it.bundle is not None:
        print(bundle(it.bundle, random.Random(it.bundle)), end="")
        return 0
    if not os.access(it.program, os.X_OK):
        print(f"{it.program} is not there: ./test or ./build builds it\n0 passed, 1 failed")
        return 1
    if it.count is None:
        return try_all(it.program, BUNDLES, it.jobs or 1, SECONDS)
    return try_all(it.program, it.count, it.jobs or os.cpu_count() or 1, float("inf"))


if __name__ == "__main__":
    sys.exit(main())
