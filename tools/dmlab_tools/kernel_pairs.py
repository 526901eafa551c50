"""What the conditions of kernel_entries.py ask of two lines that differ, and of what stands below."""

from __future__ import annotations

import re
from typing import Callable

from dmlab_tools.kernel_lines import Pair
from dmlab_tools.kernel_scene import Line, Scene

FLUSHES = ("sync", "datasync")


def reached(scene: Scene, pair: Pair) -> list[Line]:
    """The lines that stand below the device of a log's line or of a command."""
    is_command = pair.key.startswith("script ")
    device = scene.name_of((pair.words + ["", ""])[1 if is_command else 0])
    return [line for _, line in scene.below(device)]


def reaches(scene: Scene, pair: Pair, fits: Callable[[Line], bool]) -> bool:
    """Whether one of the lines below fits, or, for a log's line, one of any device that shares a
    disk with it: what one device writes the other reads.
    """
    if any(fits(line) for line in reached(scene, pair)):
        return True
    return not pair.key.startswith("script ") and any(
        fits(line) for lines in scene.tables.values() for line in lines
    )


def is_read_back(pair: Pair) -> bool:
    """Whether both sides read bytes, or one does and the other fails."""
    sides = [pair.mine, pair.theirs]
    return pair.words[1:2] == ["read"] and all(re.match(r"[0-9]+x|EIO", it) for it in sides)


def is_at(pair: Pair) -> int:
    """Whether the two are answered at other moments: -1 if Linux is earlier, 1 if it is later."""
    found = [re.fullmatch(r"at ([0-9.]+) s", it) for it in pair[2:]]
    if not found[0] or not found[1]:
        return 0
    return 1 if float(found[1][1]) > float(found[0][1]) else -1


def has_flush(scene: Scene) -> bool:
    """Whether a log has a flush."""
    return bool(scene.operations(*FLUSHES))
