"""timeline_draw: the rows of a timeline's page as SVG, for tools/timeline.

Each bar is a rectangle with its place by moment as x and width, and its place by event as data-e,
in percent of the drawing's width; data-r has the places of its events, data-t a remark.
tools/timeline.js puts one in place of the other.
"""

from __future__ import annotations

import collections
import html
import re
from typing import Any, Counter, NamedTuple, Sequence

from dmlab_tools.timeline_bars import device_bars, log_bars, script_bars
from dmlab_tools.timeline_found import FOUND, Found, marks
from dmlab_tools.timeline_layout import (
    CELLS,
    LOOKS,
    Axis,
    Bar,
    Box,
    Shade,
    heights,
    lanes_of,
    runs,
    worst,
)
from dmlab_tools.trace_bios import Bios
from dmlab_tools.trace_rows import Row

# With more bars than FAR a kind of tracks shows from afar how much goes on and what matters most,
# and the bars from near. With more than MOST_BARS it has no bars.
FAR = {"finding": 8000, "script": 4000, "log": 4000, "device": 1500}
MOST_BARS, MOST_LANES = 8000, 12
# Heights and gaps in pixels. UNDER the bars is room for shades to be seen.
TOP, GAP, BAR, LANE, FLOW, STRIP, UNDER = 30, 8, 16, 8, 36, 7, 7


class Track(NamedTuple):
    """A row of the drawing: its name, its bars, the kind of them, and its shades as pairs of a box
    and a bar.
    """

    name: tuple[str, str]
    bars: list[Bar]
    kind: str
    shades: Sequence[Shade]


def plain(text: str) -> str:
    """A text as a page may have it: no byte that isn't printable ASCII, and no markup."""
    return html.escape(re.sub("[^ -~]", "?", text))


def percent(share: float) -> str:
    """A share in percent, as short as may be."""
    return f"{100 * share:.4f}".rstrip("0").rstrip(".") or "0"


def widths(box: Box) -> str:
    """The attributes of a rectangle's place: by moment as such, by event beside."""
    (left, right), (first, end) = box
    wide = f'x="{percent(left)}%" width="{percent(max(right - left, 0))}%"'
    return f'{wide} data-e="{percent(first)} {percent(max(end - first, 0))}"'


def rectangle(
    look: str, box: Box, top: int, height: int, places: Sequence[int] = (), remark: str = ""
) -> str:
    """A rectangle of the drawing."""
    told = f' data-r="{" ".join(map(str, places))}"' if places else ""
    told += f' data-t="{plain(remark)}"' if remark else ""
    return f'<rect class="{look}" {widths(box)} y="{top}" height="{height}"{told}/>\n'


def flow_path(tops: list[int], height: int) -> str:
    """The outline of how many bars lie over one another, on cells of width 1."""
    most = max(tops) or 1
    steps = [
        f"H{first}V{height - round(top / most * (height - 2), 1):g}"
        for top, first, _ in runs(tops)
    ]
    return f"M0 {height}" + "".join(steps) + f"H{CELLS}V{height}Z"


def cell_paths(looks: list[str | None], top: int, height: int) -> str:
    """A path for each look: the cells in which it matters most."""
    found: dict[str, str] = collections.defaultdict(str)
    for look, first, count in runs(looks):
        if look:
            found[look] += f"M{first} {top}h{count}v{height}h-{count}Z"
    return "".join(f'<path class="{look}" d="{found[look]}"/>' for look in LOOKS if look in found)


def density(axis: Axis, bars: list[Bar], kind: str, top: int, height: int) -> str:
    """A track without bars: for devices how many bios are in flight, and for all what matters most
    in each cell.
    """
    text = ""
    for way, name in enumerate(("m", "e")):
        flow = flow_path(heights(axis, bars, way), height - STRIP - 1) if kind == "device" else ""
        inside = f'<path class="flow" d="{flow}"/>' if flow else ""
        inside += cell_paths(
            worst(axis, bars, way), *((height - STRIP, STRIP) if flow else (0, height))
        )
        text += f'<svg class="{name}" y="{top}" width="100%" height="{height}" viewBox="0 0 {CELLS} {height}"'
        text += f' preserveAspectRatio="none">{inside}</svg>\n'
    return text


def count_bars(axis: Axis, tracks: list[Track]) -> Counter[str]:
    """The bars of each kind of tracks."""
    counts: Counter[str] = collections.Counter()
    for track in tracks:
        counts[track.kind] += len(axis.shown(track.bars))
    return counts


def draw_bars(axis: Axis, lanes: list[list[Bar]], top: int) -> tuple[str, int]:
    """The bars of a track in their lanes, what matters most last, and their height: low where
    there are many lanes.
    """
    size = BAR if len(lanes) <= 3 else LANE
    placed = sorted(
        (LOOKS.index(bar.look), at, bar) for at, lane in enumerate(lanes) for bar in lane
    )
    text = "".join(
        rectangle(
            bar.look,
            axis.box(bar.first, bar.last),
            top + at * (size + 1),
            size,
            bar.places,
            bar.remark,
        )
        for _, at, bar in placed
    )
    return text, max(len(lanes) * (size + 1) - 1, BAR)


def draw_track(axis: Axis, track: Track, count: int, top: int) -> tuple[str, int, str]:
    """A track's drawing without its shades, its height, and the remark behind its name."""
    bars = axis.shown(track.bars)
    lanes = lanes_of(bars, MOST_LANES) if count <= MOST_BARS else None
    near, height = draw_bars(axis, lanes, top) if lanes is not None else ("", 0)
    if lanes is not None and count <= FAR[track.kind]:
        return near, height, ""
    height = max(height, FLOW if track.kind == "device" else BAR)
    far = density(axis, bars, track.kind, top, height)
    if lanes is not None:
        far = f'<g class="far">{far}</g><g class="near" data-kind="{track.kind}">{near}</g>'
    most = max(heights(axis, bars, 1)) if track.kind == "device" else 0
    return far, height, f"{most} at once" if most else ""


def draw(axis: Axis, tracks: list[Track]) -> tuple[str, str, int]:
    """The drawing of all tracks, their names beside, and the height."""
    counts = count_bars(axis, tracks)
    drawn, names, top = "", "", TOP
    for track in tracks:
        text, height, remark = draw_track(axis, track, counts[track.kind], top)
        height += UNDER if track.shades else 0
        shades = "".join(
            rectangle(bar.look, box, top - 2, height + 4, (), bar.remark)
            for box, bar in track.shades
        )
        drawn += f'<g data-kind="{track.kind}"><rect class="back" width="100%" y="{top - 2}" height="{height + 4}"/>\n'
        drawn += f"{shades}{text}</g>\n"
        name, label = map(plain, track.name)
        names += f'<div style="top:{top - 2}px;height:{height + 4}px" data-at="{top - 2} {height + 4}" title="{label}">'
        names += f"<span><b>{name}</b> {label} <i>{remark}</i></span></div>\n"
        top += height + GAP
    return drawn, names, top


def finding_tracks(found: list[Found]) -> list[Track]:
    """The strip on top: a track for each kind of finding, with how many there are."""
    return [
        Track((word, str(len(bars))), bars, "finding", ()) for word, bars in marks(found).items()
    ]


def tracks_of(
    axis: Axis,
    rows: list[Row],
    bios: Bios,
    found: list[Found],
    names: dict[Any, str],
    shades: dict[str, list[Shade]],
) -> list[Track]:
    """The tracks: the findings, if there are any, the script, the logs, the devices."""
    tracks = finding_tracks(found)
    tracks.append(Track(("script", ""), script_bars(rows), "script", ()))
    for log, bars in log_bars(axis, rows, bios, found).items():
        tracks.append(Track((f"log {log}", names.get(log, "")), bars, "log", ()))
    for device, bars in device_bars(axis, rows, bios).items():
        tracks.append(
            Track((device, names.get(device, "")), bars, "device", shades.get(device, ()))
        )
    return tracks
