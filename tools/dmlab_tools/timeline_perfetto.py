"""timeline_perfetto: writes a timeline in the JSON of Chrome's tracing, which Perfetto opens, for
tools/timeline.

Moments are in microseconds. Events of one moment stand one nanosecond apart, so that their order
is seen. The script and the logs are threads of one process, and each device is a process, whose
threads are as many as it has bios in flight at once.
"""

from __future__ import annotations

import json
from typing import Any, Dict, Iterator

from dmlab_tools.timeline_draw import Track
from dmlab_tools.timeline_found import Found, answer_of
from dmlab_tools.timeline_layout import lanes_of
from dmlab_tools.trace_rows import Row

Event = Dict[str, Any]
RUN, MOST = 1, 1 << 30


def moments(rows: list[Row]) -> list[float]:
    """The moment of each event, in microseconds."""
    found: list[float] = []
    begun = 0
    for at, row in enumerate(rows):
        begun = at if not at or rows[at - 1].clock != row.clock else begun
        found.append(round(row.clock + min(at - begun, 999) / 1000, 3))
    return found


def named(what: str, name: str, process: int, thread: int = 0) -> Event:
    """The name of a process or of a thread."""
    return {
        "ph": "M",
        "name": f"{what}_name",
        "pid": process,
        "tid": thread,
        "args": {"name": name},
    }


def title_of(rows: list[Row], first: int, kind: str, remark: str) -> str:
    """The title of a slice."""
    row = rows[first]
    sectors = " {}+{}".format(*row.sectors) if row.sectors and row.kind != "flush" else ""
    what = remark.partition(":")[0] if kind == "device" else f"{row.line} {row.happened}"
    return f"{what} {row.kind}{sectors}" if kind == "device" else f"{what}{sectors}"


def slices(
    rows: list[Row], times: list[float], track: Track, process: int, thread: int
) -> Iterator[Event]:
    """The slices of a track, each lane a thread."""
    for at, lane in enumerate(lanes_of(track.bars, MOST) or [[]]):
        yield named("thread", " ".join(filter(None, track.name)), process, thread + at)
        for bar in lane:
            name = title_of(
                rows, bar.places[0] - 1 if bar.places else bar.first, track.kind, bar.remark
            )
            told = {"place": bar.first + 1, "remark": bar.remark}
            taken = round(times[bar.last] - times[bar.first], 3)
            event = {"ph": "X", "name": name, "cat": bar.look, "pid": process, "tid": thread + at}
            yield {**event, "ts": times[bar.first], "dur": taken, "args": told}


def findings(times: list[float], found: list[Found]) -> Iterator[Event]:
    """An instant for each finding, and a flow from what was lost or changed to what found it."""
    for number, it in enumerate(found, 1):
        log, at = it.bio.origin[0], times[answer_of(it) - 1]
        event = {"ph": "i", "s": "p", "name": it.word, "cat": "finding", "pid": RUN, "tid": log}
        yield {**event, "ts": at, "args": {"why": it.why}}
        if it.cause:
            flow = {"name": it.word, "cat": "finding", "id": number, "pid": RUN}
            ends = (times[bio.made.place - 1] for bio in (it.cause, it.bio))
            yield {**flow, "ph": "s", "tid": it.cause.origin[0], "ts": next(ends)}
            yield {**flow, "ph": "f", "bp": "e", "tid": log, "ts": next(ends)}


def perfetto(rows: list[Row], found: list[Found], tracks: list[Track]) -> str:
    """The whole JSON, an event a line."""
    times, process = moments(rows), RUN
    events = [named("process", "script and logs", RUN)]
    for track in tracks:
        if track.kind == "finding":
            continue
        thread = int(track.name[0].split()[1]) if track.kind == "log" else 0
        if track.kind == "device":
            process += 1
            events.append(named("process", " ".join(filter(None, track.name)), process))
        events += slices(rows, times, track, process if track.kind == "device" else RUN, thread)
    events += findings(times, found)
    lines = ",\n".join(json.dumps(event, separators=(",", ":")) for event in events)
    return f'{{"displayTimeUnit":"ns","traceEvents":[\n{lines}\n]}}\n'
