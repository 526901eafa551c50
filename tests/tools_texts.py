#!/usr/bin/env python3
"""tests/tools_texts.py: looks from inside at how the tools read texts: what dmsetup prints,
bundles, times and outages, rows of sweeps and of findings, verdicts, and tab-separated text. One
line for each case that fails, and at the end 'N passed, M failed'.
"""

from __future__ import annotations

import argparse
import io
import os
import sys
import tempfile
from typing import Callable

sys.dont_write_bytecode = True
ROOT = os.path.dirname(os.path.dirname(os.path.abspath(__file__)))
sys.path.insert(0, f"{ROOT}/tools")
from dmlab_tools.aftermath_check import Verdict, Verdicts
from dmlab_tools.bundle_tables import Tables
from dmlab_tools.fio_logs import Fault, Place
from dmlab_tools.outage_words import At, read_ats, read_lengths, read_outage
from dmlab_tools.progress import OwnLine
from dmlab_tools.shrink_bundle import Part, place_of, read_bundle, text_of
from dmlab_tools.sweep_found import Count, Key, line_of, read_counts, read_findings, summed
from dmlab_tools.sweep_parts import Seeds, Stamp, chunks, head_of, missing, read_part, read_rows
from dmlab_tools.sweep_parts import share
from dmlab_tools.tab_text import columns_of, line_of as tab_line
from dmlab_tools.timeline_found import rows_in

COUNTS = {"passed": 0, "failed": 0}
HERE = Place("here", 1)
NAMES = (
    "finding seed log name line kind device sectors issued took at count by table_line target "
    "found wanted sync"
)
LOST = "lost 4 1 app 7 write dm0 8+8 6000000 0 8 8 dm0 1 flakey - - 1.8"


def same(name: str, wanted: object, came: object) -> None:
    """Counts a case, which passed if the two are the same."""
    COUNTS["passed" if wanted == came else "failed"] += 1
    if wanted != came:
        print(f"{name}: wanted {wanted!r}, came {came!r}")


def why(action: Callable[[], object]) -> str:
    """What an action is refused for, or nothing."""
    try:
        action()
    except (Fault, argparse.ArgumentTypeError) as error:
        return str(error)
    return ""


def tabbed(*lines: str) -> bytes:
    """Lines with a tab for each blank."""
    return "".join(f"{line}\n" for line in lines).replace(" ", "\t").encode()


def in_file(data: bytes, read: Callable[[str], object], name: str = "file") -> object:
    """What is read of a file, or why it is refused, with FILE in place of its path."""
    with tempfile.TemporaryDirectory() as room:
        path = os.path.join(room, name)
        with open(path, "wb") as file:
            file.write(data)
        try:
            return read(path)
        except Fault as fault:
            return str(fault).replace(path, "FILE")


def tables() -> None:
    """What dmsetup prints: lines of tables, numbers of devices, and names alone."""

    def read(path: str) -> Tables:
        """The tables of a file."""
        found = Tables({"vg-old": "new"})
        found.read(path)
        return found

    text = b"m (253:0)\nvg-old\t(253, 11)\nm: 0 8 zero\nm: 8 8 linear 8:16 3\nvg-old:\n"
    found = in_file(text, read)
    assert isinstance(found, Tables)
    rows = [(place.line, " ".join(words)) for place, words in found.devices["m"].lines]
    same("lines of m", [(3, "0 8 zero"), (4, "8 8 linear 8:16 3")], rows)
    same(
        "no line of vg-old",
        (5, []),
        (found.devices["vg-old"].place.line, found.devices["vg-old"].lines),
    )
    for word, wanted in {
        "253:0": "m",
        "/dev/dm-11": "vg-old",
        "253:11": "vg-old",
        "new": "vg-old",
        "/dev/mapper/m": "m",
    }.items():
        same(f"known {word}", f"/dev/mapper/{wanted}", found.known(word))
    same("a disk", "8:16", found.known("/dev/sdb"))
    refusal = "FILE, line 1: not NAME: START LENGTH TARGET [ARGUMENTS]"
    same("no name", refusal, in_file(b"0 8 zero\n", read))


def bundles() -> None:
    """The parts of a bundle, its text, and the line of a part's line."""
    log = "== log a\nfio version 2 iolog\n"
    text = f"# top\n== table t\n\n0 8 zero\n== script\ncreate m t\n\nreplay\n\n{log}"
    parts = read_bundle(text)
    same("kinds", ["top", "table", "script", "log"], [part.kind for part in parts])
    same("a log", Part("log", "a", ("fio version 2 iolog",)), parts[3])
    kept = f"# top\n== table t\n0 8 zero\n== script\ncreate m t\n\nreplay\n{log}"
    same("blank lines that keep numbers", kept, text_of(parts))
    for part, line, wanted in (
        ("script", 3, 8),
        ("table t", 2, 4),
        ("bundle", 5, 5),
        ("log b", 1, 0),
    ):
        same(f"place of {part}", wanted, place_of(text, part, line))


def outages() -> None:
    """Words of outages."""
    same("outage", ("m", "drop_writes"), read_outage("/dev/mapper/m=drop_writes"))
    same("lengths", [50000, 1000000], read_lengths("50ms,1s"))
    ats = [At(each=1), At(each=20), At(mark="a b"), At(moment=1500000)]
    same("moments", ats, read_ats("every-write,every-20,mark=a b,1.5s"))
    for read, word in (
        (read_outage, "m=none"),
        (read_outage, "=drop_writes"),
        (read_lengths, "1ms,"),
        (read_lengths, "0s"),
        (read_ats, "every-0"),
        (read_ats, "mark="),
        (read_ats, "5"),
    ):
        same(f"no outage {word}", True, why(lambda: read(word)) != "")


def ranges() -> None:
    """Ranges of seeds: what is missing, split at multiples, and in shares."""
    held = [Seeds(20, 29), Seeds(0, 4), Seeds(3, 9)]
    same("missing", [Seeds(10, 19), Seeds(30, 35)], list(missing(Seeds(2, 35), held)))
    same("none is missing", [], list(missing(Seeds(0, 9), held)))
    same("chunks", [Seeds(7, 9), Seeds(10, 19), Seeds(20, 21)], list(chunks(Seeds(7, 21), 10)))
    shares = [share(Seeds(5, 14), part, 3) for part in (1, 2, 3)]
    same("shares", [Seeds(5, 7), Seeds(8, 10), Seeds(11, 14)], shares)


def parts() -> None:
    """Files of rows: their first line, their rows, and whether they are whole."""
    stamp = Stamp("a" * 64, "b" * 64, "yes", "lost,broken-sync", "yes")
    head = head_of(stamp, Seeds(3, 4))
    digests = f"bundle {'a' * 64} program {'b' * 64}"
    wanted = f"# {digests} prompt yes findings lost,broken-sync by line seeds 3..4\n"
    same("head", wanted, head)

    def read(path: str) -> object:
        """The part of a file."""
        part = read_part(path, Seeds(3, 4))
        return part.stamp, part.is_whole

    same("whole", (stamp, True), in_file(f"{head}x\n# end\n".encode(), read))
    same("cut off", (stamp, False), in_file(f"{head}x\n".encode(), read))
    same("cut off in its head", (None, False), in_file(head[:-5].encode(), read))
    refusal = "FILE, line 1: not the first line of rows that tools/sweep wrote"
    same("no head", refusal, in_file(b"seed 3\n# end\n", read))
    other = head.replace("3..4", "3..5").encode()
    refusal = "FILE, line 1: rows of the seeds 3..5, and the file's name says 3..4"
    same("other seeds", refusal, in_file(other + b"# end\n", read))
    rows = b"seed 3 0123456789abcdef eio=0 steps=9 clock=0 now=0\n"
    found = read_rows(io.BytesIO(rows), HERE, Seeds(3, 4))
    same("a row", (3, b"0123456789abcdef"), tuple(next(found)))
    same("no second row", "here, line 2: no row of seed 4", why(lambda: next(found)))


def findings() -> None:
    """Rows of findings and counts by line."""
    rows = tabbed(NAMES, LOST, LOST.replace("lost 4", "lost 9"))

    def read(words: str, data: bytes, first: int = 0) -> str:
        """The seeds of the rows, or why they are refused."""
        seeds = Seeds(first, 9)
        found: list[int] = []
        refused = why(
            lambda: found.extend(
                it.seed for it in read_findings(io.BytesIO(data), HERE, seeds, words)
            )
        )
        return refused or str(found)

    same("findings", "[4, 9]", read("lost,stale", rows))
    same(
        "not asked for",
        "here, line 2: no finding of stale of a seed from 0 to 9",
        read("stale", rows),
    )
    same(
        "before the first",
        "here, line 2: no finding of lost of a seed from 5 to 9",
        read("lost", rows, 5),
    )
    back = tabbed(NAMES, LOST, LOST.replace("lost 4", "lost 3"))
    same("back", "here, line 3: no finding of lost of a seed from 4 to 9", read("lost", back))
    same("no names", "here, line 1: not the names of the columns", read("lost", tabbed(LOST)))
    one, two = Count(Key("lost", 1, b"app", 7), 2, 4), Count(Key("lost", 1, b"app", 8), 3, 5)
    same("line of a count", tabbed("lost 1 app 7 2 4 28.57"), line_of(one, 7))
    more = one._replace(seeds=2, first=12)
    same("sums", [one._replace(seeds=4), two], summed([[one, two], [more]]))
    names = "finding log name line seeds first percent"
    data = tabbed(names, "lost 1 app 7 2 4 20.00")
    same("counts", [one], read_counts(io.BytesIO(data), HERE, Seeds(0, 9), "lost"))
    wrong = tabbed(names, "lost 1 app 7 2 4 20.01")
    refusal = "here, line 2: no count of lost of a seed from 0 to 9"
    same(
        "wrong share",
        refusal,
        why(lambda: read_counts(io.BytesIO(wrong), HERE, Seeds(0, 9), "lost")),
    )


def rows_of_a_run() -> None:
    """Rows behind a report, and before a history."""
    data = b"accepted budget=9\n" + tabbed(NAMES, LOST) + b"== history\nclock 5\n"
    found = in_file(
        data, lambda path: [(place.line, row["line"], row["sync"]) for place, row in rows_in(path)]
    )
    same("a row of a run", [(3, "7", "1.8")], found)
    same(
        "not a row",
        "FILE, line 2: not a row of a finding",
        in_file(tabbed(NAMES, LOST[:-4]), rows_in),
    )
    none = "FILE: no findings: no line has the names of their columns"
    same("no rows", none, in_file(tabbed(LOST), rows_in))


def verdicts() -> None:
    """Verdicts that a folder keeps: a last line that was cut off is left out."""
    with tempfile.TemporaryDirectory() as room:
        Verdicts(room, ["true"]).add("d1", Verdict("0", "all is well"))
        with open(f"{room}/verdicts.tsv", "a", encoding="ascii") as file:
            file.write("d2\t4\tcut o")
        same("verdicts", {"d1": Verdict("0", "all is well")}, Verdicts(room, ["true"]).known)
        other = why(lambda: Verdicts(room, ["false"])).rpartition(": ")
        same("of another check", "take another folder for --into", other[2])
        with open(f"{room}/verdicts.tsv", "a", encoding="ascii") as file:
            file.write("d2\t4\n")
        refusal = why(lambda: Verdicts(room, ["true"]))
        same(
            "no verdict",
            f"{room}/verdicts.tsv, line 3: no verdict: delete this line, or the file",
            refusal,
        )


def tabs() -> None:
    """Tab-separated text, in which nothing is quoted."""
    same("columns", ["a", "", '"b', " c"], columns_of(HERE, 'a\t\t"b\t c'))
    same("no column", [""], columns_of(HERE, ""))
    same("a line", 'a\t"b"\t3\n', tab_line(["a", '"b"', 3]))
    refusal = (
        "here, line 1: a carriage return in tab-separated text: a line ends by a newline alone"
    )
    same("a carriage return", refusal, why(lambda: columns_of(HERE, "a\tb\r")))


def progress() -> None:
    """The line that tells how far a tool is, in words."""
    line = OwnLine("sweep", "seeds", 40, 10)
    text = line.text(30, "1 of 2 parts", 6.0)
    # 20 of 30 seeds took 6 seconds, so the 10 that are left take 3
    told = "sweep: 30 of 40 seeds, 1 of 2 parts, 6.0 seconds, about 3 seconds more, until "
    same("an estimate", told, text[:-8])
    same("none yet", "sweep: 10 of 40 seeds, no part, 6.0 seconds", line.text(10, "no part", 6.0))
    same(
        "no total",
        "read: 8192 lines, f, 0.5 seconds",
        OwnLine("read", "lines", None, 0).text(8192, "f", 0.5),
    )


def main() -> int:
    """Tries everything, and answers the status."""
    for part in (
        tables,
        bundles,
        outages,
        ranges,
        parts,
        findings,
        rows_of_a_run,
        verdicts,
        tabs,
        progress,
    ):
        part()
    print(f"{COUNTS['passed']} passed, {COUNTS['failed']} failed")
    return 0 if not COUNTS["failed"] else 1


sys.exit(main())
