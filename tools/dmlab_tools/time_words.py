"""time_words: reads times with a unit, and has the bounds of a wait."""

from __future__ import annotations

import re

UNITS = {"s": 1000000, "ms": 1000, "us": 1}
HOUR, LEAST_WAIT = 3600000000, 100


def moment(word: str) -> int:
    """A moment such as 1.5s, 200ms or 90us in microseconds."""
    found = re.fullmatch(r"([0-9]{1,10})(?:\.([0-9]{1,6}))?(s|ms|us)", word)
    if not found:
        raise ValueError(word)
    return (
        (int(found[1]) * 1000000 + int((found[2] or "").ljust(6, "0")))
        * UNITS[found[3]]
        // 1000000
    )
