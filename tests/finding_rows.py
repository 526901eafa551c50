"""finding_rows: what is wrong with the answers of a run, for tests/findings.py.

Made from docs/FORMATS.md: a row for each finding, with all its columns, the counts by line and the
totals, of runs that finding_runs.py followed.
"""

from __future__ import annotations

import dataclasses
from typing import Iterator, Sequence

from finding_bios import ZEROES, Operation, Sector
from finding_runs import Run
from finding_tables import Culprit

WORDS = ("eio", "lost", "corrupt", "stale", "misplaced", "broken-sync")
HEAD = (
    "finding seed log name line kind device sectors issued took at count by table_line target "
    "found wanted sync"
).replace(" ", "\t")
HEAD_BY_LINE = "finding log name line seeds first percent".replace(" ", "\t")


@dataclasses.dataclass(frozen=True)
class Finding:
    """What is wrong with the answer to an operation: the word, the first wrong sector, how many
    are wrong, the line that did it, what was found and wanted, and the sync behind a lost write.
    """

    word: str
    of: Operation
    at: int | None = None
    count: int = 0
    by: Culprit | None = None
    found: str = "-"
    wanted: str = "-"
    sync: str = "-"


def spelled(it: Operation, sector: int | None = None) -> str:
    """An operation as the rows name it, with a sector as it counts them."""
    name = f"{it.origin[0]}.{it.origin[1]}"
    return name if sector is None else f"{name}+{sector}"


def first_dropped(it: Operation) -> Culprit | None:
    """The line that dropped the first lost sector of an operation, if one is lost."""
    return it.dropped[min(it.dropped)] if it.dropped else None


# ---- writes and trims, and syncs
def sync_behind(it: Operation, answers: Sequence[Operation]) -> str:
    """The first sync of its device that is answered ok behind an operation."""
    behind = answers[answers.index(it) + 1 :]
    syncs = [them for them in behind if them.kind in ("sync", "datasync")]
    own = (spelled(them) for them in syncs if them.device == it.device and them.is_ok)
    return next(own, "-")


def of_change(it: Operation, answers: Sequence[Operation]) -> Iterator[Finding]:
    """What is wrong with a write or a trim that is answered ok."""
    if it.dropped:
        at, by = it.first + min(it.dropped), first_dropped(it)
        yield Finding("lost", it, at, len(it.dropped), by, sync=sync_behind(it, answers))
    if it.spoiled:
        first = min(it.spoiled)
        yield Finding("corrupt", it, it.first + first, len(it.spoiled), it.spoiled[first])


def of_sync(it: Operation) -> Iterator[Finding]:
    """What is wrong with a sync that is answered ok."""
    if it.stood:
        at, lost = next(iter(it.stood.items()))
        wanted = spelled(lost, at - lost.first)
        yield Finding("broken-sync", it, at, len(it.stood), first_dropped(lost), wanted=wanted)


# ---- reads
def writer_of(sector: Sector) -> str:
    """Who wrote a sector of an answer."""
    return spelled(sector.writer.by, sector.writer.sector) if sector.writer else "-"


def is_corrupt(sector: Sector) -> bool:
    """Whether a sector of an answer isn't what its writer wrote."""
    return sector.data != (sector.writer.by.fill if sector.writer else ZEROES)


def spoiler_of(sector: Sector) -> Culprit | None:
    """The line that made a sector of an answer another one."""
    return sector.changed or (sector.writer.spoiler if sector.writer else None)


def is_stale(sector: Sector, claim: Operation | None) -> bool:
    """Whether a sector of an answer is older than the write or trim that had to be found."""
    if claim is None or sector.is_zero:
        return False
    writer = sector.writer.by if sector.writer else None
    if claim.kind == "trim" and (writer is None or writer.kind == "trim"):
        return False
    if writer is None:
        return True
    return writer.answered is not None and writer.answered < claim.issued


def is_misplaced(it: Operation, at: int, sector: Sector) -> bool:
    """Whether a sector of an answer was written as another one of the same device."""
    writer = sector.writer
    if writer is None or writer.by.device != it.device:
        return False
    return writer.by.first + writer.sector != at


def claim_of(it: Operation, at: int) -> str:
    """The write or trim that a sector of a read had to find, with its sector."""
    claim = it.claims.get(at)
    return spelled(claim, at - claim.first) if claim else "-"


def of_read(it: Operation) -> Iterator[Finding]:
    """What is wrong with a read that is answered ok."""
    answer = dict(zip(it.sectors, it.answer))
    corrupt = [at for at, sector in answer.items() if is_corrupt(sector)]
    stale = [at for at, sector in answer.items() if is_stale(sector, it.claims.get(at))]
    misplaced = [at for at, sector in answer.items() if is_misplaced(it, at, sector)]
    for at in corrupt[:1]:
        writer, by = writer_of(answer[at]), spoiler_of(answer[at])
        yield Finding("corrupt", it, at, len(corrupt), by, writer, writer)
    for at in stale[:1]:
        by = first_dropped(it.claims[at])
        yield Finding("stale", it, at, len(stale), by, writer_of(answer[at]), claim_of(it, at))
    for at in misplaced[:1]:
        writer, claim = writer_of(answer[at]), claim_of(it, at)
        yield Finding("misplaced", it, at, len(misplaced), None, writer, claim)


def findings(run: Run) -> Iterator[Finding]:
    """The findings of a run, in the order of the answers."""
    for it in run.answers:
        if not it.is_ok:
            yield Finding("eio", it)
        elif it.kind == "read":
            yield from of_read(it)
        elif it.kind in ("sync", "datasync"):
            yield from of_sync(it)
        else:
            yield from of_change(it, run.answers)


# ---- lines
def row(seed: int, it: Finding, names: Sequence[str]) -> str:
    """The row of a finding in the run of a seed, where the logs have these names."""
    of, is_sync = it.of, it.of.kind in ("sync", "datasync")
    log, line = of.origin
    words = [it.word, seed, log, names[log - 1], line, of.kind, of.device]
    words += ["-" if is_sync else f"{of.first}+{of.count}", of.moment, of.took]
    words += ["-", "-"] if it.at is None else [it.at, it.count]
    words += list(it.by or ("-", "-", "-"))
    return "\t".join(map(str, [*words, it.found, it.wanted, it.sync]))


def by_line(runs: dict[int, list[Finding]], names: Sequence[str]) -> list[str]:
    """The lines that count the findings of runs by their logs' lines."""
    seeds: dict[tuple[str, int, int], list[int]] = {}
    for seed, found in runs.items():
        for it in found:
            seeds.setdefault((it.word, *it.of.origin), []).append(seed)
    most = sorted(seeds.items(), key=lambda pair: -len(pair[1]))
    return [HEAD_BY_LINE] + [
        f"{word}\t{log}\t{names[log - 1]}\t{line}\t{len(of)}\t{of[0]}\t{share(len(of), len(runs))}"
        for (word, log, line), of in most
    ]


def share(count: int, whole: int) -> str:
    """A share in percent with two decimals, cut off."""
    return f"{count * 10000 // whole // 100}.{count * 10000 // whole % 100:02}"


def totals(runs: dict[int, list[Finding]], asked: Sequence[str]) -> str:
    """The line that counts the findings of runs."""
    words = [it.word for found in runs.values() for it in found]
    counts = [f"{word}={words.count(word)}" for word in WORDS if word in asked]
    return " ".join([f"runs={len(runs)} found={sum(map(bool, runs.values()))}", *counts])
