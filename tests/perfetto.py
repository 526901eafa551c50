#!/usr/bin/env python3
"""tests/perfetto.py: holds the JSON of `tools/timeline --perfetto` against the rules of the document
Trace Event Format, which Chrome's tracing and Perfetto read: which fields each phase has, slices of
a thread that nest, flows that begin and end within a slice. Where Chromium and Chrome's trace viewer
are installed (golang-src), two of them are opened there, and the viewer has each slice, flow and
instant. One line for each case that fails, and at the end 'N passed, M failed'. It needs the proved
program.
"""

from __future__ import annotations

import collections
import json
import os
import subprocess
import sys
import tempfile
from typing import Any, Dict, Iterator

sys.dont_write_bytecode = True
import trace_viewer

ROOT = os.path.dirname(os.path.dirname(os.path.abspath(__file__)))
DMLAB = f"{ROOT}/crates/dmlab/out/dmlab"
COUNTS = {"passed": 0, "failed": 0}
FINDINGS = "--eio --lost --corrupt --stale --misplaced --broken-sync".split()
BUNDLES = (
    *("lost_write", "two_disks", "three_layers", "rotting_disk"),
    *("recipes/table_swap", "recipes/journal_byte", "recipes/suspended", "tutorial/recorded"),
)
# the fields that each phase has to have
FIELDS = {
    "X": {"name", "cat", "pid", "tid", "ts", "dur", "args"},
    "M": {"name", "pid", "tid", "args"},
    "i": {"name", "cat", "pid", "tid", "ts", "s"},
    "s": {"name", "cat", "pid", "tid", "ts", "id"},
    "f": {"name", "cat", "pid", "tid", "ts", "id", "bp"},
}
Event = Dict[str, Any]


def same(name: str, wanted: object, came: object) -> None:
    """Counts a case, which passed if the two are the same."""
    COUNTS["passed" if wanted == came else "failed"] += 1
    if wanted != came:
        print(f"{name}: wanted {wanted!r}, came {came!r}")


def told(bundle: str, *words: str) -> bytes:
    """What the program writes of a bundle."""
    with open(f"{ROOT}/examples/{bundle}.bundle", "rb") as file:
        call = [DMLAB, *words]
        return subprocess.run(call, stdin=file, capture_output=True, check=True).stdout


def json_of(bundle: str, room: str) -> Any:
    """The JSON of a bundle's run."""
    for name, words in (("trace", ["trace"]), ("found", ["sim", *FINDINGS])):
        with open(f"{room}/{name}", "wb") as file:
            file.write(told(bundle, *words))
    call = [f"{ROOT}/tools/timeline", f"{room}/trace", "--findings", f"{room}/found"]
    subprocess.run([*call, "--perfetto", f"{room}/json"], check=True)
    with open(f"{room}/json", encoding="utf-8") as text:
        return json.load(text)


def wrong_fields(event: Event) -> Iterator[str]:
    """What is wrong with an event by itself."""
    phase = event.get("ph")
    if phase not in FIELDS or not FIELDS[phase] <= set(event):
        yield f"fields of {event}"
    for word, kind in {"pid": int, "tid": int, "name": str}.items():
        if not isinstance(event.get(word), kind):
            yield f"{word} of {event}"
    for word in ("ts", "dur"):
        if word in event and not (isinstance(event[word], (int, float)) and event[word] >= 0):
            yield f"{word} of {event}"
    if phase == "M" and not isinstance(event.get("args", {}).get("name"), str):
        yield f"no name in {event}"
    if phase == "M" and event.get("name") not in ("process_name", "thread_name"):
        yield f"the name of {event}"
    if phase == "i" and event.get("s") not in ("g", "p", "t"):
        yield f"the scope of {event}"
    if phase == "f" and event.get("bp") != "e":
        yield f"the scope of {event}"


def threads_of(events: list[Event]) -> dict[tuple[int, int], list[tuple[float, float]]]:
    """For each thread where its slices begin and end, the longer of two that begin at once first."""
    found = collections.defaultdict(list)
    for it in events:
        if it["ph"] == "X":
            found[it["pid"], it["tid"]].append((it["ts"], round(it["ts"] + it["dur"], 3)))
    return {thread: sorted(ends, key=lambda it: (it[0], -it[1])) for thread, ends in found.items()}


def overlapping(events: list[Event]) -> Iterator[str]:
    """Slices of one thread that overlap and don't nest."""
    for thread, slices in threads_of(events).items():
        open_until: list[float] = []
        for begin, end in slices:
            while open_until and open_until[-1] <= begin:
                open_until.pop()
            if open_until and end > open_until[-1]:
                yield f"{thread}: {begin} to {end} is longer than the slice around it"
            open_until.append(end)


def wrong_flows(events: list[Event]) -> Iterator[str]:
    """Flows that don't begin once and end once later, each within a slice of its thread."""
    threads, flows = threads_of(events), collections.defaultdict(list)
    for it in (it for it in events if it["ph"] in "sf"):
        flows[it["cat"], it["name"], it["id"]].append(it)
        slices = threads.get((it["pid"], it["tid"]), [])
        if not any(begin <= it["ts"] <= end for begin, end in slices):
            yield f"no slice around {it}"
    for name, ends in flows.items():
        if [it["ph"] for it in ends] != ["s", "f"] or ends[0]["ts"] > ends[1]["ts"]:
            yield f"the ends of the flow {name}"


def unnamed(events: list[Event]) -> set[object]:
    """Processes and threads without a name."""
    names = [it for it in events if it["ph"] == "M"]
    threads = {(it["pid"], it["tid"]) for it in names if it["name"] == "thread_name"}
    processes = {it["pid"] for it in names if it["name"] == "process_name"}
    used = {(it["pid"], it["tid"]) for it in events if it["ph"] != "M"}
    return (used - threads) | ({pid for pid, _ in used} - processes)


def counts_of(events: list[Event]) -> dict[str, object]:
    """What a viewer has to read of these events."""
    phases = collections.Counter(it["ph"] for it in events)
    threads = len({(it["pid"], it["tid"]) for it in events})
    counts = {"slices": phases["X"], "flows": phases["s"], "instants": phases["i"]}
    return {**counts, "threads": threads, "warnings": []}


def look_in_viewer() -> None:
    """Opens two bundles' JSON in Chrome's trace viewer, where it is installed."""
    if not trace_viewer.is_there():
        print("skipped: no chromium or no trace viewer (golang-src) here, so none opened the JSON")
        return
    for bundle in ("lost_write", "recipes/journal_byte"):
        with tempfile.TemporaryDirectory() as room:
            events = json_of(bundle, room)["traceEvents"]
            read = trace_viewer.read_by_viewer(f"{room}/json")
        same(f"{bundle}: read by the viewer", counts_of(events), read)


def main() -> int:
    """Looks at each bundle's JSON, and answers the status."""
    flows = 0
    for bundle in BUNDLES:
        with tempfile.TemporaryDirectory() as room:
            whole = json_of(bundle, room)
        events = whole["traceEvents"]
        same(f"{bundle}: unit", True, whole["displayTimeUnit"] in ("ms", "ns"))
        same(f"{bundle}: events", [], [why for it in events for why in wrong_fields(it)][:3])
        same(f"{bundle}: slices", [], list(overlapping(events))[:3])
        same(f"{bundle}: flows", [], list(wrong_flows(events))[:3])
        same(f"{bundle}: names", set(), unnamed(events))
        flows += sum(it["ph"] == "s" for it in events)
    same("flows were seen", True, flows > 3)
    look_in_viewer()
    print(f"{COUNTS['passed']} passed, {COUNTS['failed']} failed")
    return 0 if not COUNTS["failed"] else 1


sys.exit(main())
