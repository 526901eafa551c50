"""Runs bundles: in as few boots as it takes, and many of them on several machines."""

from __future__ import annotations

import concurrent.futures
import os
import threading
from typing import Callable

from dmlab_tools import kernel_boot
from dmlab_tools.kernel_answers import Outcome, read_outcome, split_answers, versions
from dmlab_tools.kernel_orders import bundle_time, order_files, read_parts

# How many bundles are worth a second machine.
LANE = 40


class Lane:
    """Bundles that run in one machine after another: their names, texts and outcomes."""

    def __init__(self, bundles: list[tuple[str, str]], told: Callable[[str], None]) -> None:
        self.bundles, self.told = bundles, told
        self.outcomes: list[Outcome] = []
        self.head: list[str] = []

    def run(self) -> None:
        """Runs the bundles in as few boots as it takes."""
        while len(self.outcomes) < len(self.bundles):
            left = self.bundles[len(self.outcomes) :]
            limits = [bundle_time(read_parts(text)) // 1000 for _, text in left]
            answers = kernel_boot.boot(
                order_files([text for _, text in left]),
                limits,
                lambda number, left=left: self.told(left[number - 1][0]),  # type: ignore[misc]
            )
            self.head, blocks = split_answers(answers)
            self.outcomes += [read_outcome(block) for block in blocks]
            if not blocks:
                self.outcomes.append(Outcome({}, [], [], ["the guest came to no end"]))


class Progress:
    """Tells each bundle that has run, and how many."""

    def __init__(self, count: int, say: Callable[[str], None]) -> None:
        self.count, self.say, self.done = count, say, 0
        self.lock = threading.Lock()

    def __call__(self, name: str) -> None:
        """Tells that a bundle has run."""
        with self.lock:
            self.done += 1
            self.say(f"{self.done} of {self.count}: {name} ran")


def run_all(
    bundles: list[tuple[str, str]], say: Callable[[str], None]
) -> tuple[list[str], list[Outcome]]:
    """The versions that Linux tells and the outcomes of bundles, each a name and a text. Many of
    them run on several machines side by side, one for two processors.
    """
    count = max(1, min((os.cpu_count() or 1) // 2, len(bundles) // LANE))
    size = -(-len(bundles) // count) or 1
    told = Progress(len(bundles), say)
    lanes = [Lane(bundles[at : at + size], told) for at in range(0, len(bundles), size)]
    with concurrent.futures.ThreadPoolExecutor(count) as pool:
        for _ in pool.map(Lane.run, lanes):
            pass
    head = versions(lanes[0].head) if lanes else []
    return head, [outcome for lane in lanes for outcome in lane.outcomes]
