"""timeline_bars: the bars of a timeline's tracks, of the script, of each log and of each device,
for tools/timeline.
"""

from __future__ import annotations

import collections

from dmlab_tools.timeline_found import FOUND, Found, sentence
from dmlab_tools.timeline_layout import LOOKS, Axis, Bar
from dmlab_tools.trace_bios import Bio, Bios, fate_of, lost_text, writers_text
from dmlab_tools.trace_rows import Row, is_operation

FATES = {
    "ok": "ok",
    "EIO": "EIO",
    "lost": "ok but lost",
    "zeroes": "ok with zeroes of no disk",
    "changed": "ok with a changed byte",
    "unanswered": "not answered",
}


def remark(name: str, bio: Bio, fate: str) -> str:
    """What is to be told of a bio, in words."""
    lost, wrote = lost_text(bio) if fate == "lost" else "", writers_text(bio)
    told = f": {lost} never reached a disk" if lost else f": {wrote}" if wrote else ""
    return f"{name}: {FATES[fate]}{told}"


def places_of(bio: Bio) -> tuple[int, ...]:
    """The places of the events that a bio has."""
    found = [row.place for row in (bio.made, bio.released, bio.mapped, bio.answered) if row]
    return tuple(found)


def bar_of(bio: Bio, begun: Row, name: str, last: int) -> Bar:
    """The bar of a bio from the line at which it begins to its answer, or to the last event."""
    fate = fate_of(bio)
    end = bio.answered.place - 1 if bio.answered else last
    return Bar(begun.place - 1, end, fate, places_of(bio), remark(name, bio, fate))


def log_name(bio: Bio) -> str:
    """The name of an operation."""
    log, line = bio.origin
    return f"log {log}, line {line}"


def script_bars(rows: list[Row]) -> list[Bar]:
    """The steps of the script."""
    return [
        Bar(at, at, "step", (row.place,), "")
        for at, row in enumerate(rows)
        if row.event == "control"
    ]


def with_findings(bar: Bar, bio: Bio, found: list[Found]) -> Bar:
    """The bar of an operation that has findings: it looks as the one that matters most, and its
    remark says why, and who wrote what it read.
    """
    if not found:
        return bar
    look = max((FOUND[it.word][0] for it in found), key=LOOKS.index)
    told = "; ".join(filter(None, [*map(sentence, found), writers_text(bio)]))
    return bar._replace(look=look, remark=f"{log_name(bio)}: {told}")


def is_shown(bio: Bio, axis: Axis) -> bool:
    """Whether a bio has an event among those of the axis, or lives there."""
    ended = bio.answered.place - 1 if bio.answered else axis.end
    return bio.made.place <= axis.end and ended >= axis.first


def log_bars(
    axis: Axis, rows: list[Row], bios: Bios, findings: list[Found]
) -> dict[int, list[Bar]]:
    """For each log its operations, from line to answer, and its other lines."""
    found: dict[int, list[Bar]] = collections.defaultdict(list)
    of_bio: dict[int, list[Found]] = collections.defaultdict(list)
    for it in findings:
        of_bio[it.bio.number].append(it)
    for bio in bios.roots:
        shown = found[bio.origin[0]]
        if is_shown(bio, axis):
            bar = bar_of(bio, bio.made, log_name(bio), len(rows) - 1)
            shown.append(with_findings(bar, bio, of_bio[bio.number]))
    for row in rows:
        if row.event.startswith("line") and not is_operation(row):
            found[row.log].append(Bar(row.place - 1, row.place - 1, "step", (row.place,), ""))
    return {log: sorted(found[log]) for log in sorted(found)}


def held_bar(bio: Bio, last: int) -> Bar:
    """The bar of a bio while the device above holds it."""
    end = bio.released.place - 1 if bio.released else last
    return Bar(
        bio.made.place - 1,
        end,
        "held",
        places_of(bio),
        f"bio {bio.number}: held until moment {bio.until}",
    )


def device_bars(axis: Axis, rows: list[Row], bios: Bios) -> dict[str, list[Bar]]:
    """For each device the bios in flight there, and those that it holds for a lower device."""
    found: dict[str, list[Bar]] = collections.defaultdict(list)
    last = len(rows) - 1
    for bio in bios.known.values():
        is_seen = is_shown(bio, axis)
        if bio.until is not None and bio.parent:
            found[bio.parent.device] += [held_bar(bio, last)] if is_seen else []
        if bio.device and not bio.is_held():
            begun = bio.released or bio.made
            found[bio.device] += [bar_of(bio, begun, f"bio {bio.number}", last)] if is_seen else []
    for row in rows:
        if row.event == "control" and row.device:
            found[row.device] += []
    return {device: sorted(found[device]) for device in sorted(found, key=rank)}


def rank(device: str) -> tuple[int, int]:
    """The order of devices: the mapped ones, the latest first, since it lies on the others, and
    then the disks.
    """
    number = int(device.lstrip("dmra"))
    return (0, -number) if device.startswith("dm") else (1, number)
