"""shrink_judge: tells whether a test holds on a bundle, and under which seed, for tools/shrink.

A test is a command, which gets the bundle on its standard input, or regular expressions for lines
of what `dmlab sim` prints, or findings that it looks for. A bundle that dmlab refuses is handed to
no command. What was told of a text is kept.
"""

from __future__ import annotations

import collections
import concurrent.futures
import csv
import hashlib
import os
import queue
import time
from typing import Iterable, NamedTuple, Pattern

from dmlab_tools.shrink_bundle import line_at, read_bundle, spots, text_of, with_line
from dmlab_tools.shrink_run import SLOW, Answer, Running
from dmlab_tools.sweep_found import ROW_NAMES
from dmlab_tools.tab_text import Tabs


class Test(NamedTuple):
    """What a test is: a command or none, regular expressions, findings, whether the honest bundle
    must not show the same, and whether runs are prompt.
    """

    command: list[str]
    patterns: list[Pattern[str]]
    findings: list[str]
    by_fault: bool
    prompt: bool


class Verdict(NamedTuple):
    """The seed under which a test holds on a bundle, or None, and how many runs that took of each
    kind.
    """

    seed: int | None
    counts: collections.Counter[str]


COLUMNS = ROW_NAMES.decode()


def honest(text: str) -> str:
    """The bundle where nothing fails: each flakey line is linear, and no message enables a dust
    line.
    """
    parts = read_bundle(text)
    for spot in spots(parts, "table", "script"):
        words = line_at(parts, spot)
        if parts[spot.part].kind == "table" and words[2:3] == ["flakey"]:
            parts = with_line(parts, spot, " ".join([*words[:2], "linear", *words[3:5]]))
        elif words[0] == "message" and words[3].lower() == "enable":
            parts = with_line(parts, spot, "")
    return text_of(parts)


def digest_of(text: str) -> bytes:
    """What a text is known by."""
    return hashlib.sha256(text.encode("ascii", "surrogateescape")).digest()


def found_in(output: str) -> set[str]:
    """The findings that have a row in what `dmlab sim` wrote."""
    rows = output.partition(COLUMNS)[2].partition("== history\n")[0]
    return {row[0] for row in csv.reader(rows.splitlines(), Tabs) if row}


class Judge:
    """Asks a test about bundles, some at once, and counts what it asked."""

    def __init__(
        self, program: str, test: Test, seeds: list[int], seconds: float, room: str, jobs: int
    ) -> None:
        self.program, self.test, self.seeds = program, test, seeds
        self.running, self.jobs = Running(seconds), jobs
        self.known: dict[bytes, int | None] = {}
        self.counts: collections.Counter[str] = collections.Counter()
        self.started = time.monotonic()
        self.executor = concurrent.futures.ThreadPoolExecutor(jobs)
        self.paths: queue.SimpleQueue[str] = queue.SimpleQueue()
        for job in range(jobs):
            self.paths.put(os.path.join(room, f"bundle{job or ''}"))

    def dmlab(self, text: str, *words: str) -> Answer:
        """What dmlab answers to some words on a bundle."""
        return self.on_file(text, [self.program, *words])

    def on_file(self, text: str, words: list[str]) -> Answer:
        """What a command answers that reads the bundle from a file, whose path {} stands for."""
        path = self.paths.get()
        try:
            with open(path, "w+b") as file:
                file.write(text.encode("ascii", "surrogateescape"))
                file.seek(0)
                return self.running.run([word.replace("{}", path) for word in words], file)
        finally:
            self.paths.put(path)

    def seed_of(self, text: str, first: int) -> int | None:
        """The seed under which the test holds, tried from `first` on, or None."""
        return self.seeds_of([text], first)[0]

    def seeds_of(self, texts: list[str], first: int) -> list[int | None]:
        """The seeds under which the test holds on some bundles, which are asked about at once."""
        digests = [digest_of(text) for text in texts]
        asked = {digest: text for digest, text in zip(digests, texts) if digest not in self.known}
        self.counts["known"] += len(texts) - len(asked)
        for digest, verdict in zip(asked, self.verdicts(list(asked.values()), first)):
            self.known[digest] = verdict.seed
            self.counts += verdict.counts
        return [self.known[digest] for digest in digests]

    def verdicts(self, texts: list[str], first: int) -> Iterable[Verdict]:
        """What is told of some bundles. An interrupt ends what runs."""
        if len(texts) < 2:
            return [self.verdict(text, first) for text in texts]
        try:
            return list(self.executor.map(lambda text: self.verdict(text, first), texts))
        except KeyboardInterrupt:
            self.running.stop()
            self.executor.shutdown()
            self.running.go_on()
            raise

    def verdict(self, text: str, first: int) -> Verdict:
        """Asks the test under each seed until it holds."""
        counts: collections.Counter[str] = collections.Counter()
        if self.test.command and not self.accepts(text, counts):
            return Verdict(None, counts)
        holds = self.holds(text, first, counts)
        if holds is not False:
            return Verdict(first if holds else None, counts)
        for seed in self.likely([it for it in self.seeds if it != first], text, counts):
            if self.holds(text, seed, counts):
                return Verdict(seed, counts)
        return Verdict(None, counts)

    def likely(self, seeds: list[int], text: str, counts: collections.Counter[str]) -> list[int]:
        """Those of the seeds under which the test may hold. Where it looks for findings, one sweep
        tells whose runs have them all.
        """
        if self.test.command or not self.test.findings or len(seeds) < 2:
            return seeds
        if max(seeds) - min(seeds) > len(seeds):
            return seeds
        range_words = ["--first", str(min(seeds)), "--last", str(max(seeds))]
        answer = self.dmlab(text, "sweep", *range_words, *self.options())
        if answer.status != 0:
            return seeds
        counts["tests"] += len(seeds)
        found: dict[str, set[str]] = collections.defaultdict(set)
        for row in csv.reader(answer.output.splitlines()[1:], Tabs):
            found[row[1]].add(row[0])
        return [seed for seed in seeds if found[str(seed)] >= {*self.test.findings}]

    def options(self) -> list[str]:
        """The words of a run or a sweep that looks for the test's findings."""
        return [*["--prompt"] * self.test.prompt, *(f"--{it}" for it in self.test.findings)]

    def holds(self, text: str, seed: int, counts: collections.Counter[str]) -> bool | None:
        """Whether the test holds under a seed. None where dmlab refuses the bundle."""
        if self.test.command:
            return self.commanded(text, seed, counts)
        return self.matched(text, seed, counts)

    def accepts(self, text: str, counts: collections.Counter[str]) -> bool:
        """Whether dmlab takes a bundle."""
        accepted = self.dmlab(text, "check").status == 0
        counts["refused"] += not accepted
        return accepted

    def commanded(self, text: str, seed: int, counts: collections.Counter[str]) -> bool:
        """Whether the command ends with status 0."""
        counts["tests"] += 1
        words = [word.replace("{seed}", str(seed)) for word in self.test.command]
        self.last = self.on_file(text, words)
        counts["slow"] += self.last.status == SLOW
        return self.last.status == 0

    def sim(self, text: str, seed: int, *words: str) -> Answer:
        """A run by a seed, which looks for the test's findings."""
        options = [*self.options(), *["--fail"] * bool(self.test.findings)]
        return self.dmlab(text, "sim", "--seed", str(seed), *options, *words)

    def matched(self, text: str, seed: int, counts: collections.Counter[str]) -> bool | None:
        """Whether the run shows it, and that of the honest bundle doesn't. None where dmlab
        refuses it.
        """
        answer = self.sim(text, seed)
        if answer.status == 1:
            counts["refused"] += 1
            return None
        counts["tests"] += 1
        counts["slow"] += answer.status == SLOW
        if not self.shows(answer):
            return False
        return not self.test.by_fault or self.is_honest_without(text, seed, counts)

    def shows(self, answer: Answer) -> bool:
        """Whether a run was done, has the findings, and has the lines."""
        if answer.status != (4 if self.test.findings else 0):
            return False
        has_all = len(self.test.findings) < 2 or found_in(answer.output) >= {*self.test.findings}
        return has_all and self.has_lines(answer.output.partition("== history\n")[0])

    def has_lines(self, output: str) -> bool:
        """Whether each regular expression matches some line."""
        lines = output.splitlines()
        return all(any(pattern.search(line) for line in lines) for pattern in self.test.patterns)

    def is_honest_without(self, text: str, seed: int, counts: collections.Counter[str]) -> bool:
        """Whether the honest bundle is run and doesn't show the same."""
        counts["tests"] += 1
        answer = self.sim(honest(text), seed)
        return answer.status in (0, 4) and not self.shows(answer)

    def history_of(self, text: str, seed: int) -> str | None:
        """The history of the run, or None where the test doesn't hold on what has it: the run that
        it is of, or, for a command, the bundle with it. By dmlab audit it has to be that run.
        """
        answer = self.sim(text, seed, "--history")
        output, heading, events = answer.output.partition("== history\n")
        history, report = heading + events, output.partition(COLUMNS)[0]
        if not events or self.dmlab(text + history, "audit").output != report:
            return None
        if self.test.command:
            return history if self.commanded(text + history, seed, self.counts) else None
        return history if self.shows(answer) else None
