"""timeline_page: writes the page of a timeline, one file that stands alone, for tools/timeline."""

from __future__ import annotations

import collections
import json
import os
import re

from dmlab_tools.timeline_bars import FATES
from dmlab_tools.timeline_draw import Track, draw, plain
from dmlab_tools.timeline_found import FOUND, Found, answer_of
from dmlab_tools.timeline_layout import Axis
from dmlab_tools.timeline_legend import LEGEND, looks_of
from dmlab_tools.timeline_why import seconds
from dmlab_tools.trace_bios import Bios, fate_of
from dmlab_tools.trace_rows import Row

# As many findings are in the list. Keys and clicks reach all that are shown.
MOST_LISTED = 200


def counted(count: int, one: str, many: str | None = None) -> str:
    """A number of things, in words."""
    return f"{count} {one if count == 1 else many or one + 's'}"


def summary(rows: list[Row], axis: Axis, bios: Bios, found: list[Found]) -> str:
    """What the run came to, in a sentence."""
    counts = collections.Counter(fate_of(bio) for bio in bios.roots)
    told = ", ".join(f"{counts[fate]} {text}" for fate, text in FATES.items() if counts[fate])
    events = (
        f"{counted(len(rows), 'event')}, {seconds(rows[0].clock)} to {seconds(rows[-1].clock)}"
    )
    if axis.count < len(rows):
        events += f", of which {axis.first + 1} to {axis.end} are shown (--events tells others)"
    words = collections.Counter(it.word for it in found)
    findings = ", ".join(f"{words[word]} {word}" for word in FOUND if words[word])
    findings = f" {counted(len(found), 'finding')}: {findings}." if found else ""
    return f"{events}. {counted(len(bios.roots), 'operation')}: {told or 'none'}.{findings}"


def listed(found: list[Found], is_judged: bool) -> str:
    """The list of findings, or of faults where no findings were told, each with its sentence."""
    if not found:
        return ""
    what = counted(len(found), *(("finding",) if is_judged else ("fault",)))
    lines = [
        f'<li data-f="{at}"><b class="{FOUND[it.word][0]}">{it.word}</b> {plain(it.why)}</li>\n'
        for at, it in enumerate(found[:MOST_LISTED])
    ]
    if len(found) > MOST_LISTED:
        lines.append(f"<li>and {len(found) - MOST_LISTED} more</li>\n")
    return f"<details open><summary>{what}</summary><ol>\n{''.join(lines)}</ol></details>\n"


def found_data(found: list[Found]) -> str:
    """The findings for the page's script: the places of the operation, its answer and its cause."""
    data = [
        [it.word, it.bio.made.place, answer_of(it), it.cause.made.place if it.cause else 0]
        for it in found
    ]
    return json.dumps(data, separators=(",", ":"))


def legend(tracks: list[Track]) -> str:
    """The looks that the drawing has, in words."""
    seen = looks_of(tracks)
    return "".join(
        f'<span><i class="{look}"></i>{LEGEND[look]}</span>\n' for look in LEGEND if look in seen
    )


def beside(name: str) -> str:
    """The text of a file beside this one."""
    with open(
        os.path.join(os.path.dirname(os.path.realpath(__file__)), name), encoding="ascii"
    ) as file:
        return file.read()


def page(
    title: str,
    rows: list[Row],
    bios: Bios,
    found: list[Found],
    axis: Axis,
    tracks: list[Track],
    texts: dict[str, str],
    is_judged: bool,
) -> str:
    """The whole page. `texts` has the bundle's lines by the log and the line of the events."""
    drawn, names, height = draw(axis, tracks)
    parts = {
        "TITLE": plain(title),
        "SUMMARY": summary(rows, axis, bios, found if is_judged else []),
        "LOST": listed(found, is_judged),
        "FOUND": found_data(found),
        "LEGEND": legend(tracks),
        "NAMES": names,
        "DRAWN": drawn,
        "HEIGHT": str(height),
        "SHARE": str(axis.share),
        "ROWS": "\n".join(row.text for row in rows[axis.first : axis.end]),
        "TEXTS": json.dumps(texts, separators=(",", ":")).replace("<", "\\u003c"),
        "STYLE": beside("timeline.css"),
        "SCRIPT": beside("timeline.js"),
    }
    return re.sub("@([A-Z]+)@", lambda found: parts[found[1]], beside("timeline.html"))
