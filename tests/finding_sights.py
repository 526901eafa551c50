"""finding_sights: what there was to see in the findings of a run, for tests/findings.py: each
finding has to come up with each of its causes, or the test looked at too little.
"""

from __future__ import annotations

from typing import Iterator

from finding_bios import Operation, Sector
from finding_rows import WORDS, Finding, is_stale
from finding_runs import CHANGES, Run

SIGHTS = (
    *(f"eio {kind}" for kind in ("read", "write", "trim", "sync", "datasync")),
    "eio a piece of a write that is lost",
    *(f"lost {kind}" for kind in ("write", "trim")),
    "lost in part",
    "lost by two lines",
    "lost by the upper line of a stack",
    "lost by a lower line of a stack",
    "lost with a later sync",
    "lost with a later datasync",
    "lost without a later sync",
    "lost without a later sync of its own device",
    "zero line written, nothing lost",
    *(f"corrupt {kind}" for kind in ("write", "read")),
    "stale read",
    "misplaced read",
    "corrupt write by the upper line of a stack",
    "corrupt write by a lower line of a stack",
    "corrupt write by two lines",
    "corrupt read by a line on its way back",
    "corrupt read by the upper line of a stack",
    "corrupt read by the writer's line",
    "corrupt read by the writer's line, through a line that changes another sector",
    "corrupt read of what nobody wrote",
    "corrupt read of a zero line",
    "corrupt read of a trim",
    "corrupt in several sectors",
    "corrupt by a random byte",
    "changed into the same byte",
    "stale: nobody's",
    "stale: an older one's",
    "stale: another log's",
    "stale: a failed one's",
    "stale by a lost write",
    "stale by a lost trim",
    "stale by a line that didn't drop this sector",
    "stale behind a write that wasn't lost",
    "stale behind a trim",
    "stale behind another log's write",
    "stale in part",
    "stale: the newest wasn't answered last",
    "not stale: zeroes behind a trim",
    "not stale: a trim's zeroes behind a trim",
    "not stale: a zero line answers",
    "not stale: no claim on a zero line's sectors",
    "not stale: the older one was still under way",
    "not stale: newer one on another device",
    "not stale: newer one not yet answered",
    "not stale: newer one failed",
    "misplaced with a claim",
    "misplaced without a claim",
    "misplaced: of its own log",
    "misplaced: of another log",
    *(f"broken-sync {kind}" for kind in ("sync", "datasync")),
    "broken-sync by another log's write",
    "broken-sync: the lost one wasn't the newest",
    "broken-sync in several sectors",
    "broken-sync of several operations",
    "no broken-sync: written again",
    "no broken-sync: failed",
    "by a line behind the first",
    "lost and corrupt",
    "corrupt and stale",
    "corrupt and misplaced",
    "stale and misplaced",
    "nothing",
    "several words in a run",
    "other by another seed",
    "other by --prompt",
)


def of_lost(it: Finding, run: Run) -> Iterator[str]:
    """What there was to see in a lost write or trim."""
    of, lines = it.of, set(it.of.dropped.values())
    assert it.by
    behind = [them for them in run.answers if them.kind in ("sync", "datasync") and them.is_ok]
    behind = [them for them in behind if (them.answered or 0) > (of.answered or 0)]
    own = [them for them in behind if them.device == of.device]
    yield from ["lost in part"] * (len(of.dropped) < of.count)
    yield from ["lost by two lines"] * (len(lines) > 1)
    yield from ["lost by a lower line of a stack"] * (it.by.device != of.device)
    is_stack = any(line.device.startswith("dm") for line in run.live[of.device].lines)
    yield from ["lost by the upper line of a stack"] * (it.by.device == of.device and is_stack)
    yield from [f"lost with a later {own[0].kind}"] if own else ["lost without a later sync"]
    yield from ["lost without a later sync of its own device"] * (not own and bool(behind))


def of_corrupt_write(it: Finding, run: Run) -> Iterator[str]:
    """What there was to see in a write that reached its disk as another one."""
    assert it.by
    is_stack = any(line.device.startswith("dm") for line in run.live[it.of.device].lines)
    yield from ["corrupt write by a lower line of a stack"] * (it.by.device != it.of.device)
    yield from ["corrupt write by the upper line of a stack"] * (
        it.by.device == it.of.device and is_stack
    )
    yield from ["corrupt write by two lines"] * (len(set(it.of.spoiled.values())) > 1)


def of_corrupt_read(it: Finding) -> Iterator[str]:
    """What there was to see in a read that was answered other bytes than were written."""
    assert it.at is not None and it.by
    sector = it.of.answer[it.at - it.of.first]
    others = [them.changed for them in it.of.answer if them is not sector]
    yield from ["corrupt read by a line on its way back"] * bool(sector.changed)
    yield from ["corrupt read by the upper line of a stack"] * (
        bool(sector.changed) and it.by.device == it.of.device
    )
    yield from ["corrupt read by the writer's line"] * (not sector.changed)
    yield from [
        "corrupt read by the writer's line, through a line that changes another sector"
    ] * (not sector.changed and any(others))
    yield from ["corrupt read of a zero line"] * sector.is_zero
    yield from ["corrupt read of what nobody wrote"] * (not sector.is_zero and not sector.writer)
    yield from ["corrupt read of a trim"] * bool(sector.writer and sector.writer.by.kind == "trim")


def before(it: Operation, at: int, run: Run) -> list[Operation]:
    """The writes and trims of a sector of an operation's device that were answered ok before the
    operation was issued, in the order of the answers.
    """
    return [
        them
        for them in run.answers
        if them.is_ok and them.kind in CHANGES and them.device == it.device
        if at in them.sectors and (them.answered or 0) < it.issued
    ]


def of_stale(it: Finding, run: Run) -> Iterator[str]:
    """What there was to see in a stale read."""
    assert it.at is not None
    of, claim = it.of, it.of.claims[it.at]
    writer = of.answer[it.at - of.first].writer
    yield "stale: an older one's" if writer else "stale: nobody's"
    if writer:
        yield from ["stale: another log's"] * (writer.by.origin[0] != claim.origin[0])
        yield from ["stale: a failed one's"] * (not writer.by.is_ok)
    yield f"stale by a lost {claim.kind}" if it.by else "stale behind a write that wasn't lost"
    yield from ["stale by a line that didn't drop this sector"] * bool(
        it.by and claim.dropped.get(it.at - claim.first) != it.by
    )
    yield from ["stale behind a trim"] * (claim.kind == "trim")
    last = [them for them in before(of, it.at, run) if it.at - them.first not in them.zeroes][-1]
    yield from ["stale: the newest wasn't answered last"] * (last is not claim)
    yield from ["stale behind another log's write"] * (claim.origin[0] != of.origin[0])
    yield from ["stale in part"] * (it.count < of.count)


def of_misplaced(it: Finding) -> Iterator[str]:
    """What there was to see in a read of what was written as another sector."""
    own = it.found.partition(".")[0] == str(it.of.origin[0])
    yield "misplaced without a claim" if it.wanted == "-" else "misplaced with a claim"
    yield "misplaced: of its own log" if own else "misplaced: of another log"


def of_broken_sync(it: Finding, run: Run) -> Iterator[str]:
    """What there was to see in a sync behind a lost write."""
    assert it.at is not None
    newest = max(before(it.of, it.at, run), key=lambda them: them.issued)
    yield from ["broken-sync: the lost one wasn't the newest"] * (newest is not it.of.stood[it.at])
    own = it.wanted.partition(".")[0] == str(it.of.origin[0])
    yield from ["broken-sync by another log's write"] * (not own)
    yield from ["broken-sync in several sectors"] * (it.count > 1)
    yield from ["broken-sync of several operations"] * (
        len({them.origin for them in it.of.stood.values()}) > 1
    )


def is_random(it: Finding, run: Run) -> bool:
    """Whether the line that did it draws bytes, by the table that stands at the end."""
    lines = run.live[it.by.device].lines if it.by else []
    return any(
        word.startswith("random")
        for line in lines
        if it.by and line.number == it.by.number
        for word in line.words
    )


def of_finding(it: Finding, run: Run) -> Iterator[str]:
    """What there was to see in a finding."""
    yield f"{it.word} {it.of.kind}"
    yield from ["by a line behind the first"] * bool(it.by and it.by.number > 1)
    yield from ["eio a piece of a write that is lost"] * (not it.of.is_ok and bool(it.of.dropped))
    if it.word == "lost":
        yield from of_lost(it, run)
    if it.word == "corrupt":
        yield from ["corrupt in several sectors"] * (it.count > 1)
        yield from ["corrupt by a random byte"] * is_random(it, run)
        yield from of_corrupt_write(it, run) if it.of.kind == "write" else of_corrupt_read(it)
    if it.word == "stale":
        yield from of_stale(it, run)
    if it.word == "misplaced":
        yield from of_misplaced(it)
    if it.word == "broken-sync":
        yield from of_broken_sync(it, run)


# ---- what isn't found
def of_sector(it: Operation, at: int, sector: Sector, run: Run) -> Iterator[str]:
    """What there was to see in a sector of a read that isn't stale: why no other makes it so."""
    claim, writer = it.claims.get(at), sector.writer.by if sector.writer else None
    others = [
        them
        for them in run.answers
        if them.kind in ("write", "trim") and them is not writer and them.answered
    ]
    issued = writer.issued if writer else 0
    done = writer.answered if writer else 0
    newer = [them for them in others if done is not None and done < them.issued < it.issued]
    here = [them for them in newer if them.device == it.device and at in them.sectors]
    if claim and not sector.is_zero and claim.kind == "trim":
        yield from ["not stale: zeroes behind a trim"] * (writer is None)
        yield from ["not stale: a trim's zeroes behind a trim"] * bool(
            writer and writer is not claim and writer.kind == "trim" and (done or 0) < claim.issued
        )
    yield from ["not stale: a zero line answers"] * (sector.is_zero and claim is not None)
    yield from ["not stale: the older one was still under way"] * bool(
        claim and writer and writer is not claim and issued < claim.issued < (done or 0)
    )
    newest = max(before(it, at, run), key=lambda them: them.issued, default=None)
    yield from ["not stale: no claim on a zero line's sectors"] * bool(
        newest and at - newest.first in newest.zeroes and is_stale(sector, newest)
    )
    yield from ["not stale: newer one not yet answered"] * any(
        (them.answered or 0) > it.issued for them in here
    )
    yield from ["not stale: newer one failed"] * any(not them.is_ok for them in here)
    yield from ["not stale: newer one on another device"] * any(
        them.device != it.device and at in them.sectors for them in newer
    )


def of_operation(it: Operation, run: Run) -> Iterator[str]:
    """What there was to see in an operation that was answered ok, in what isn't found."""
    if it.kind == "write":
        yield from ["zero line written, nothing lost"] * (bool(it.zeroes) and not it.dropped)
    if it.kind == "read":
        for at, sector in zip(it.sectors, it.answer):
            if not is_stale(sector, it.claims.get(at)):
                yield from of_sector(it, at, sector, run)
    if it.kind in ("sync", "datasync") and not it.stood:
        before = [
            them
            for them in run.answers
            if them.device == it.device and them.is_ok and (them.answered or 0) < it.issued
        ]
        yield from ["no broken-sync: written again"] * any(them.dropped for them in before)


def sights(run: Run, found: list[Finding]) -> Iterator[str]:
    """What there was to see in a run."""
    words: dict[tuple[int, int], set[str]] = {}
    for it in found:
        words.setdefault(it.of.origin, set()).add(it.word)
        yield from of_finding(it, run)
    pairs = [it for it in SIGHTS if " and " in it]
    yield from (
        it for it in pairs for all_of in words.values() if all_of >= set(it.split(" and "))
    )
    yield from ["changed into the same byte"] * (run.unchanged > 0)
    yield from ["nothing"] * (not found)
    yield from ["several words in a run"] * (len({it.word for it in found}) >= len(WORDS) - 1)
    for own in run.answers:
        if own.is_ok:
            yield from of_operation(own, run)
        elif own.kind in ("sync", "datasync") and own.stood:
            yield "no broken-sync: failed"
