"""timeline_svg: draws a timeline as one SVG picture, for a page or a README, for tools/timeline.
"""

from __future__ import annotations

import math
import re
import textwrap

from dmlab_tools.timeline_draw import FAR, MOST_LANES, Track, plain
from dmlab_tools.timeline_found import FOUND, Found
from dmlab_tools.timeline_layout import CELLS, Axis, Bar, lanes_of, runs, worst
from dmlab_tools.timeline_legend import LEGEND, looks_of
from dmlab_tools.timeline_why import seconds
from dmlab_tools.trace_bios import Bio
from dmlab_tools.trace_rows import Row, is_operation

WIDTH, NAMES, TOP, ROW, GAP, MARK, EDGE = 960, 130, 34, 22, 6, 6, 12
# A letter's width in pixels, the letters of a line of text, and the most sentences and arrows.
LETTER, LINE, MOST_TOLD, MOST_ARROWS = 6.3, 138, 3, 40
# A picture has no script: its style tells the colours, light and dark.
STYLE = """text{font:12px system-ui,sans-serif;fill:var(--ink)}
.soft{fill:var(--soft);font-size:11px} .label{font-size:11px;fill:var(--label)}
.dark{fill:#10141a} .name{font-weight:bold} .page{fill:var(--page)} .back{fill:var(--back)}
.tick{stroke:var(--line)} .tip{fill:var(--ink)}
.arrow{fill:none;stroke:var(--ink);stroke-width:1.4}"""
DEFS = """<defs>
<marker id="tip" viewBox="0 0 8 8" refX="7" refY="4" markerWidth="8" markerHeight="8" orient="auto">
<path class="tip" d="M0 0L8 4L0 8Z"/></marker>
<pattern id="down" width="8" height="8" patternUnits="userSpaceOnUse"
 patternTransform="rotate(-45)"><rect style="fill:var(--down)" width="3" height="8"/></pattern>
</defs>
"""


def wide(axis: Axis, first: int, last: int) -> tuple[float, float]:
    """The left and the right edge of what lasts from an event to an event, in pixels."""
    room = WIDTH - NAMES - EDGE
    left, right = axis.box(first, last).moment
    return NAMES + left * room, NAMES + right * room


def mark(left: float, right: float) -> tuple[float, float]:
    """The edges of a mark, which is at least MARK pixels wide and goes past no edge."""
    lacks = max(MARK - (right - left), 0)
    begun = min(max(left - lacks / 2, NAMES), WIDTH - EDGE - max(right - left, MARK))
    return begun, begun + max(right - left, MARK)


def text(x: float, y: float, words: str, look: str = "") -> str:
    """A line of text."""
    named = f' class="{look}"' if look else ""
    return f'<text{named} x="{x:g}" y="{y:g}">{plain(words)}</text>\n'


def rectangle(look: str, edges: tuple[float, float], y: float, height: float, told: str) -> str:
    """A rectangle with its remark."""
    left, right = edges
    title = f"><title>{plain(told)}</title></rect>\n" if told else "/>\n"
    place = f'x="{left:.2f}" y="{y:g}" width="{max(right - left, 0.5):.2f}" height="{height:g}"'
    return f'<rect class="{look}" {place}{title}'


def label(rows: list[Row], bar: Bar, kind: str, room: float) -> str:
    """The longest label that a bar has room for."""
    row = rows[bar.places[0] - 1] if bar.places else None
    if row is None or kind == "finding":
        return ""
    sectors = " {}+{}".format(*row.sectors) if is_operation(row) and row.kind != "flush" else ""
    number = re.match("bio ([0-9]+)", bar.remark)
    one = number[1] if kind == "device" and number else str(row.line)
    words = [f"{one} {row.happened}{sectors}", f"{one} {row.happened}", one]
    if kind == "device":
        words = [f"bio {one}", one]
    return next((it for it in words if len(it) * LETTER + 6 <= room), "")


def bar_of(rows: list[Row], axis: Axis, bar: Bar, kind: str, place: tuple[float, float]) -> str:
    """A bar at a height, with its label."""
    (y, height), edges = place, wide(axis, bar.first, bar.last)
    edges = mark(*edges) if kind == "finding" else edges
    drawn = rectangle(bar.look, edges, y, height, bar.remark)
    words = label(rows, bar, kind, edges[1] - edges[0]) if height >= 12 else ""
    dark = " dark" if bar.look in ("lost", "step", "zeroes", "held") else ""
    return drawn + (text(edges[0] + 4, y + height / 2 + 4, words, "label" + dark) if words else "")


def cells_of(axis: Axis, bars: list[Bar], y: float) -> str:
    """Many bars: what matters most in each cell."""
    room = (WIDTH - NAMES - EDGE) / CELLS
    drawn = ""
    for look, first, count in runs(worst(axis, bars, 0)):
        edges = (NAMES + first * room, NAMES + (first + count) * room)
        drawn += rectangle(look, edges, y, ROW - 4, "") if look else ""
    return drawn


def bars_of(rows: list[Row], axis: Axis, track: Track, y: float) -> str:
    """The bars of a track, in lanes where some lie over others."""
    bars = axis.shown(track.bars)
    lanes = lanes_of(bars, MOST_LANES) if len(bars) <= FAR[track.kind] else None
    if track.kind == "finding" and lanes is not None:
        lanes = [bars]
    if lanes is None:
        return cells_of(axis, bars, y + 2)
    height = (ROW - 4) / max(len(lanes), 1)
    return "".join(
        bar_of(rows, axis, bar, track.kind, (y + 2 + at * height, height))
        for at, lane in enumerate(lanes)
        for bar in lane
    )


def track_of(rows: list[Row], axis: Axis, track: Track, y: float) -> str:
    """A row: its name, its shades and its bars."""
    name, label_ = track.name
    words = f'<tspan class="name">{plain(name)}</tspan> {plain(label_)}'
    drawn = f'<text x="{EDGE}" y="{y + 15:g}">{words}</text>\n'
    drawn += rectangle("back", (NAMES, WIDTH - EDGE), y, ROW, "")
    room = WIDTH - NAMES - EDGE
    for box, bar in track.shades:
        edges = (NAMES + box.moment[0] * room, NAMES + box.moment[1] * room)
        drawn += rectangle(bar.look, edges, y, ROW, bar.remark)
    return drawn + bars_of(rows, axis, track, y)


def ticks(axis: Axis, height: float) -> str:
    """The axis: round moments, as many as have room."""
    if not axis.span:
        return text(NAMES + 4, TOP - 10, seconds(axis.clocks[0]), "soft")
    room = (WIDTH - NAMES - EDGE) * (1 - axis.share)
    least = max(90 / room * axis.span, 1)
    power = 10 ** math.floor(math.log10(least))
    step = next(power * digit for digit in (1, 2, 5, 10) if power * digit >= least)
    drawn, clock = "", -(-axis.clocks[0] // step) * step
    while clock <= axis.clocks[-1]:
        x = NAMES + axis.before(clock)[0] * (WIDTH - NAMES - EDGE)
        drawn += f'<path class="tick" d="M{x:.2f} {TOP - 16}V{height:g}"/>\n'
        drawn += text(x + 4, TOP - 8, seconds(clock), "soft") if x < WIDTH - 70 else ""
        clock += step
    return drawn


def middle(axis: Axis, bio: Bio) -> float:
    """The middle of an operation's bar."""
    last = bio.answered.place - 1 if bio.answered else axis.end - 1
    return sum(wide(axis, bio.made.place - 1, last)) / 2


def arrow(axis: Axis, cause: Bio, read: Bio, tops: dict[str, float]) -> str:
    """An arrow from an operation to a read, over their rows."""
    x, end = middle(axis, cause), middle(axis, read)
    y, last = (tops[f"log {bio.origin[0]}"] + 2 for bio in (cause, read))
    rise = min(46, 14 + abs(end - x) / 6)
    path = f"M{x:.1f} {y:g}C{x:.1f} {y - rise:.1f} {end:.1f} {last - rise:.1f} {end:.1f} {last:g}"
    return f'<path class="arrow" marker-end="url(#tip)" d="{path}"/>\n'


def arrows(axis: Axis, found: list[Found], tops: dict[str, float]) -> str:
    """An arrow from each lost or changed write to each read that found it."""
    ends = [(it.cause, it.bio) for it in found if it.cause and it.bio.kind == "read"]
    shown = [pair for pair in ends if pair[0].made.place > axis.first][:MOST_ARROWS]
    return "".join(arrow(axis, cause, read, tops) for cause, read in shown)


def told(found: list[Found], y: float) -> tuple[str, float]:
    """The sentences of the first findings, and the height below them."""
    drawn = ""
    for it in found[:MOST_TOLD]:
        for at, line in enumerate(textwrap.wrap(f"{it.word}: {it.why}", LINE)):
            drawn += text(EDGE + (12 if at else 0), y, line)
            y += 17
    if len(found) > MOST_TOLD:
        drawn += text(EDGE, y, f"and {len(found) - MOST_TOLD} more", "soft")
        y += 17
    return drawn, y


def legend(tracks: list[Track], y: float) -> tuple[str, float]:
    """The looks that the picture has, in words, and the height below them."""
    drawn, x, looks = "", float(EDGE), looks_of(tracks)
    for look in (look for look in LEGEND if look in looks):
        length = 24 + len(LEGEND[look]) * LETTER + 10
        if x + length > WIDTH:
            x, y = float(EDGE), y + 18
        drawn += rectangle(look, (x, x + 18), y - 9, 10, "") + text(
            x + 24, y, LEGEND[look], "soft"
        )
        x += length
    return drawn, y + 20


def style(css: str) -> str:
    """The colours of the page's style, and the picture's own."""
    colours = "\n".join(re.findall(r"^:root \{.*?^\}|^@media \(prefers.*?^\}", css, re.M | re.S))
    looks = "".join(
        f".{look}{{fill:var(--{look})}}" for look in LEGEND if look not in ("held", "down")
    )
    return f"{colours}\n{STYLE}\n{looks}.held{{fill:var(--held)}}.down{{fill:url(#down)}}"


def picture(
    title: str, rows: list[Row], found: list[Found], axis: Axis, tracks: list[Track], css: str
) -> str:
    """The whole picture."""
    tops: dict[str, float] = {
        track.name[0]: TOP + at * (ROW + GAP) for at, track in enumerate(tracks)
    }
    bottom = TOP + len(tracks) * (ROW + GAP)
    shown = [it for it in found if axis.first < it.bio.made.place <= axis.end]
    drawn = ticks(axis, bottom - GAP)
    drawn += "".join(track_of(rows, axis, it, tops[it.name[0]]) for it in tracks)
    drawn += arrows(axis, shown, tops)
    keys, y = legend(tracks, bottom + 16)
    sentences, y = told(shown, y + 4)
    size = f'width="{WIDTH}" height="{y:g}" viewBox="0 0 {WIDTH} {y:g}"'
    head = f'<svg xmlns="http://www.w3.org/2000/svg" {size} role="img">\n'
    head += f"<title>{plain(title)}</title>\n<style>\n{style(css)}\n</style>\n{DEFS}"
    page = f'<rect class="page" width="{WIDTH}" height="{y:g}"/>\n'
    return f"{head}{page}{drawn}{keys}{sentences}</svg>\n"
