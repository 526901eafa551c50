"""timeline_why: a sentence for each finding of a run: which operation, which line of a table did
it, and which reads found it, for tools/timeline.
"""

from __future__ import annotations

import collections
from typing import Callable, NamedTuple

from dmlab_tools.shrink_bundle import is_row
from dmlab_tools.timeline_bundle import Bundle, Live, live_tables
from dmlab_tools.timeline_found import Found, origin_of
from dmlab_tools.trace_bios import Bio, below, lost_text, sector_text
from dmlab_tools.trace_rows import Row

DID = {"read": "read", "write": "wrote", "trim": "trimmed", "sync": "synced", "datasync": "synced"}
# As many reads that found a lost or changed write are told in its sentence.
MOST_READS = 3


def seconds(clock: int) -> str:
    """A moment in seconds."""
    return f"{clock / 1000000:.6f}".rstrip("0").rstrip(".") + " s"


def name_of(bio: Bio) -> str:
    """The line of a log that an operation comes from."""
    log, line = bio.origin
    return f"line {line} of log {log}"


def did(bio: Bio) -> str:
    """What an operation did, and when."""
    what = "" if bio.kind == "flush" else f" {sector_text(*bio.sectors)} of"
    at = seconds(bio.made.clock)
    return f"{name_of(bio)} {DID[bio.made.happened]}{what} {bio.device} at {at}"


def answered(it: Found) -> str:
    """What a finding's operation did, if it was answered ok."""
    return f"{did(it.bio)} and was answered ok"


def with_sectors(it: Found, what: str) -> str:
    """How many sectors of an operation are wrong, and how."""
    count = int(it.row["count"])
    is_all = it.bio.kind != "flush" and count > 1 and count == it.bio.sectors[1]
    return (
        f", with {'all ' if is_all else ''}{count} {'sector' if count == 1 else 'sectors'} {what}"
    )


def first_sector(it: Found) -> str:
    """The first wrong sector, of which the row says what the line of a table did."""
    of_them = "the first of them, " if int(it.row["count"]) > 1 else ""
    return f"{of_them}sector {it.row['at']}"


class Tables(NamedTuple):
    """The live tables of the devices, and the lines of tables, where a bundle tells them."""

    lives: dict[str, list[Live]]
    bundle: Bundle | None

    def line(self, device: str, number: int, at: int) -> str:
        """The text of the line of this number in the table that a device has at an event."""
        for live in self.lives.get(device, ()):
            if self.bundle and live.first <= at <= live.last:
                lines = self.bundle.tables.get(live.table or "", ())
                rows = [line for line in lines if is_row(line)]
                return " ".join(rows[number - 1].split()) if 0 < number <= len(rows) else ""
        return ""


def tables_of(bundle: Bundle | None, rows: list[Row]) -> Tables:
    """The tables that a bundle tells."""
    return Tables(live_tables(bundle, rows) if bundle else {}, bundle)


def mapped_at(bio: Bio | None, device: str) -> int:
    """The event at which a device mapped a piece of an operation, from 0, or -1."""
    pieces = (it for it in below(bio) if it.device == device and it.mapped) if bio else ()
    return next((it.mapped.place - 1 for it in pieces if it.mapped), -1)


def line_text(it: Found, tables: Tables) -> str:
    """The line of a table that did it, with its text where the bundle tells it."""
    device, number, target = (it.row[name] for name in ("by", "table_line", "target"))
    places = (mapped_at(it.cause, device), mapped_at(it.bio, device))
    at = next((place for place in places if place >= 0), -1)
    text = tables.line(device, int(number), at) or target
    down = " was down and" if target == "flakey" else ""
    return f"line {number} of {device}'s table ({text}){down}"


def by(it: Found, tables: Tables, what: str) -> str:
    """What the line of a table did, or nothing where none did it."""
    return "" if it.row["by"] == "-" else f"; {line_text(it, tables)} {what}"


def source(it: Found, column: str, nobody: str) -> str:
    """Whose data a column names: an operation's, with its moment, or nobody's."""
    origin = origin_of(it.row[column])
    if origin is None:
        return nobody
    at = f" at {seconds(it.cause.made.clock)}" if it.cause and it.cause.origin == origin else ""
    return f"what line {origin[1]} of log {origin[0]} wrote{at}"


def read_text(it: Found) -> str:
    """A read that found a lost or changed write, by what its first wrong sector has."""
    others = {"corrupt": "other bytes", "misplaced": "the data"}
    found = others.get(it.word) or source(it, "found", "zeroes")
    at = f"at {seconds(it.bio.made.clock)} {name_of(it.bio)}"
    return f"; {at} read {found} in sector {it.row['at']}"


def reads_text(reads: list[Found]) -> str:
    """The reads that found a lost or changed write, in their order."""
    more = len(reads) - MOST_READS
    told = "".join(map(read_text, reads[:MOST_READS]))
    return told + (f"; {more} more reads found it" if more > 0 else "")


def why_lost(it: Found, tables: Tables, reads: list[Found]) -> str:
    """Why a write or trim is lost."""
    sync = origin_of(it.row["sync"])
    behind = (
        f"the sync on line {sync[1]} of log {sync[0]} was answered ok after it" if sync else ""
    )
    dropped = by(it, tables, f"dropped {first_sector(it)}") + (behind and f"; {behind}")
    return f"{answered(it)}{with_sectors(it, 'lost')}{dropped}{reads_text(reads)}"


def why_corrupt(it: Found, tables: Tables, reads: list[Found]) -> str:
    """Why an operation is corrupt."""
    at = it.row["at"]
    if it.bio.kind != "read":
        changed = by(it, tables, f"changed {first_sector(it)}") + reads_text(reads)
        return f"{answered(it)}{with_sectors(it, 'changed on the way to the disk')}{changed}"
    wrote = source(it, "found", "the zeroes that nobody wrote over")
    came = f"; sector {at} has other bytes than {wrote}{by(it, tables, 'changed it')}"
    return f"{answered(it)}{with_sectors(it, 'corrupt')}{came}"


def why_stale(it: Found, tables: Tables, _: list[Found]) -> str:
    """Why a read is stale."""
    found = source(it, "found", "zeroes that nobody wrote")
    wanted = source(it, "wanted", "what was written later")
    came = f"; sector {it.row['at']} has {found}, in place of {wanted}"
    return f"{answered(it)}{with_sectors(it, 'stale')}{came}{by(it, tables, 'dropped it')}"


def why_misplaced(it: Found, _: Tables, __: list[Found]) -> str:
    """Why a read is misplaced."""
    found = source(it, "found", "what nobody wrote")
    came = f"; sector {it.row['at']} has {found} to another sector"
    return f"{answered(it)}{with_sectors(it, 'misplaced')}{came}"


def why_broken(it: Found, tables: Tables, _: list[Found]) -> str:
    """Why a sync is broken."""
    wanted = source(it, "wanted", "what was written there")
    came = f"; sector {it.row['at']} lacked {wanted}{by(it, tables, 'dropped it')}"
    return f"{answered(it)}{with_sectors(it, 'lost')}{came}"


def why_eio(it: Found, _: Tables, __: list[Found]) -> str:
    """Which device failed an operation."""
    failed = next((bio.device for bio in below(it.bio) if bio.rest == "failed"), "")
    return f"{did(it.bio)} and was answered EIO" + (
        f"; {failed}'s table failed it" if failed else ""
    )


def why_traced(it: Found) -> str:
    """What the trace alone tells of a fault."""
    lost = f"; {lost_text(it.bio)} never reached a disk" if it.word == "lost" else ""
    return f"{did(it.bio)} and was answered ok{lost or ' with a changed byte'}"


WHYS: dict[str, Callable[[Found, Tables, list[Found]], str]] = {
    "eio": why_eio,
    "lost": why_lost,
    "corrupt": why_corrupt,
    "stale": why_stale,
    "misplaced": why_misplaced,
    "broken-sync": why_broken,
}


def why(it: Found, tables: Tables, reads: list[Found]) -> str:
    """The sentence of a finding, of which these reads found what was lost or changed."""
    if it.row or it.word == "eio":
        return WHYS[it.word](it, tables, reads)
    return why_traced(it)


def with_whys(found: list[Found], tables: Tables) -> list[Found]:
    """The findings, each with its sentence."""
    reads = collections.defaultdict(list)
    for it in found:
        if it.cause and it.bio.kind == "read":
            reads[it.cause.number].append(it)
    return [it._replace(why=why(it, tables, reads[it.bio.number])) for it in found]
