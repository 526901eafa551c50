"""A bundle with its flakey lines written as Linux takes them, so that dmlab shows what follows.

Linux takes a chance of 0 for no feature. A line that has no other one acts by error_reads and
error_writes there (`flakey-chance-0` of docs/KERNEL.md). What differs by that alone is the same if
the bundle says so.
"""

from __future__ import annotations

from dmlab_tools.kernel_entries import is_only_never
from dmlab_tools.kernel_lines import Pair
from dmlab_tools.kernel_scene import table_line

ENTRY = "flakey-chance-0"
Told = list[tuple[Pair, list[str]]]


def taken_line(line: str) -> str:
    """A table's line as Linux takes it."""
    words = line.split()
    if words[2:3] != ["flakey"] or not is_only_never(table_line(1, words)):
        return line
    return " ".join([*words[:7], "2 error_reads error_writes"])


def taken(text: str) -> str:
    """A bundle as Linux takes it."""
    return "".join(f"{taken_line(line)}\n" for line in text.splitlines())


def joined(own: Told, other: Told) -> Told:
    """The pairs of a bundle with their entries, beside those of the same bundle as Linux takes it.
    Of a pair that differs there too the entries are those it has there. One that is the same there
    differs by the entry alone, and one that differs there alone has its own.
    """
    left = {(pair.key, pair.theirs): entries for pair, entries in other}
    found = [
        (pair, left[pair.key, pair.theirs])
        if (pair.key, pair.theirs) in left
        else (pair, entries if ENTRY in entries else [ENTRY, *entries])
        for pair, entries in own
    ]
    told = {(pair.key, pair.theirs) for pair, _ in own}
    return found + [it for it in other if (it[0].key, it[0].theirs) not in told]
