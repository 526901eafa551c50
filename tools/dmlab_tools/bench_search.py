"""bench_search: looks by chance for bundles that run long for their events, for tools/bench
--search.
"""

from __future__ import annotations

import random
import re
import statistics
import subprocess
import time
from typing import Iterator, NamedTuple

from dmlab_tools.bench_drawn import Draft, changed, drawn, logs_of, tables_of, text
from dmlab_tools.bench_families import spent

FINDINGS = ("--eio", "--lost", "--corrupt", "--stale", "--misplaced", "--broken-sync")
CHECK = ("check",)
# What each bundle is run by; what the first one takes is left out of what the others do.
CALLS: tuple[tuple[str, ...], ...] = (
    CHECK,
    ("sim",),
    ("sim", "--prompt"),
    ("sim", *FINDINGS),
    ("trace",),
    ("disks",),
    ("threads",),
)
# The operations of a log, the most of them first that leave the bundle within the budget.
COUNTS = (500, 50, 5, 1)
MOST_EVENTS = 20_000
# What a run takes that does nothing; and how many bytes of text, and how many sectors of the logs'
# operations on a device, count as an event.
START, BYTES, SECTORS = 0.004, 40, 60
# So many processor seconds a run may take. So many runs tell what is usual, and one that takes so
# many times that is dear.
MOST, FEW, LEAST = 2, 10, 3


class Dear(NamedTuple):
    """A run: by which call, of which draft with how many operations, its events, its bytes, what
    it took, and how many times what is usual an event took.
    """

    call: tuple[str, ...]
    draft: Draft
    operations: int
    events: int
    size: int
    seconds: float
    memory: int
    times: float


def budget_of(program: str, bundle: str) -> int | None:
    """The budget of a bundle, or None where it is refused."""
    run = subprocess.run([program, "check"], input=bundle, capture_output=True, text=True)
    found = re.fullmatch(r"accepted budget=(\d+)\n", run.stdout)
    return int(found[1]) if found else None


def sized(program: str, draft: Draft) -> tuple[int, int] | None:
    """How many operations a log of the draft may have, and the budget then."""
    for count in COUNTS:
        budget = budget_of(program, text(draft, count))
        if budget and budget <= MOST_EVENTS:
            return count, budget
    return None


def work_of(draft: Draft, count: int, events: int) -> float:
    """What a run of a draft has to do, in events."""
    lines = (line.split() for log in logs_of(draft, count) for line in log)
    sectors = sum(int(it[3]) // 512 for it in lines if len(it) == 4 and it[1] != "sync")
    touched = sectors * (1 + len(tables_of(draft)))
    return events + len(text(draft, count)) / BYTES + touched / SECTORS


def runs_of(program: str, draft: Draft, costs: dict[tuple[str, ...], list[float]]) -> list[Dear]:
    """What the bundle of a draft takes by each call, beside what is usual so far."""
    found = sized(program, draft)
    if found is None:
        return []
    bundle, runs, before = text(draft, found[0]), [], START
    work = work_of(draft, *found)
    for call in CALLS:
        took = spent(program, call, bundle, MOST)
        cost = max(0, took.seconds - before) / (work + took.output / BYTES)
        before = took.seconds if call == CHECK else before
        costs[call].append(cost)
        times = cost / max(1e-9, statistics.median(costs[call]))
        runs.append(Dear(call, draft, *found, len(bundle), took.seconds, took.memory, times))
    return runs


def words_of(dear: Dear) -> str:
    """A run in words."""
    bundle = f"{','.join(map(str, dear.draft))},{dear.operations}"
    return (
        f"{' '.join(dear.call)}: {dear.times:.0f} times the usual: {dear.seconds:.2f} s,"
        f" {dear.memory / 1e6:.0f} MB, {dear.events} events, {dear.size} bytes, draft {bundle}"
    )


def search(program: str, seconds: float, seed: int) -> Iterator[Dear]:
    """Each run that is dearer than those before it by the same call, for so many seconds, once some
    have told what is usual. One draft in two is that of a dear run with one part drawn anew.
    """
    draw, end = random.Random(seed), time.monotonic() + seconds
    costs: dict[tuple[str, ...], list[float]] = {call: [] for call in CALLS}
    dearest: dict[tuple[str, ...], Dear] = {}
    while time.monotonic() < end:
        known = list(dearest.values())
        draft = (
            changed(draw.choice(known).draft, draw)
            if known and draw.random() < 0.5
            else drawn(draw)
        )
        for run in runs_of(program, draft, costs):
            least = dearest[run.call].times if run.call in dearest else LEAST
            if run.times > least and len(costs[run.call]) > FEW:
                dearest[run.call] = run
                yield run
