"""timeline_legend: the looks of a timeline's bars in words, for tools/timeline."""

from __future__ import annotations

from dmlab_tools.timeline_bars import FATES
from dmlab_tools.timeline_draw import Track
from dmlab_tools.timeline_found import FOUND

LEGEND = {
    **FATES,
    **dict(FOUND.values()),
    "held": "held by a delay line",
    "step": "a step of the script, an add, open, close or wait",
    "suspended": "suspended",
    "down": "a flakey line is down",
}


def looks_of(tracks: list[Track]) -> set[str]:
    """The looks that the tracks have."""
    return {
        bar.look for track in tracks for bar in [*track.bars, *(bar for _, bar in track.shades)]
    }
