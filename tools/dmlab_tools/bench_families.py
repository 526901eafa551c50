"""bench_families: bundles that once ran long for their size, each beside a twin without what made
it slow, for tools/bench --worst and tests/families.py.

A family's size says how often the dear step comes. Its twin has as many events, or nearly.
"""

from __future__ import annotations

import os
import resource
import subprocess
import tempfile
from typing import Callable, Iterator, NamedTuple, Sequence

from dmlab_tools.bench_loads import opened, text_of


class Family(NamedTuple):
    """A family: its name, the program's words, those of its twin, what is dear in it, the bundle
    of a size and the twin's, a size of some hundred million instructions, how many times its
    twin's instructions it may take there, and the bundle of its whole size.
    """

    name: str
    words: tuple[str, ...]
    twin_words: tuple[str, ...]
    remark: str
    make: Callable[[int], str]
    make_twin: Callable[[int], str]
    small: int
    most: float
    whole: Callable[[], str]


def repeated(path: str, line: str, count: int) -> list[str]:
    """A log of one line again and again."""
    return opened(path, [line] * count)


def same_value(features: str) -> Callable[[int], str]:
    """Reads of a mebibyte whose sectors were written through a flakey line with these features."""

    def of_size(size: int) -> str:
        tables = {
            "f": [f"0 2048 flakey 1:0 0 0 3600 {features}"],
            "u": ["0 2048 dust 253:0 0 512"],
        }
        write = opened("/dev/dm-1", ["/dev/dm-1 write 0 1048576"])
        reads = [
            repeated("/dev/ram0", "/dev/ram0 read 0 1048576", size // 4 + 1) for _ in range(4)
        ]
        script = ["ram 0 2048", "create f f", "create u u", "replay"]
        return text_of(tables, script, [write, *reads])

    return of_size


def fans(levels: int, lowest: Callable[[int], str]) -> dict[str, list[str]]:
    """Tables of eight lines, each of which leads to the device below: a flush becomes eight to the
    power of the levels.
    """
    return {
        f"d{level}": [
            f"{line} 1 " + (lowest(line) if level == 0 else f"linear 253:{level - 1} 0")
            for line in range(8)
        ]
        for level in range(levels)
    }


def fan_bundle(tables: dict[str, list[str]], logs: int, then: list[str]) -> str:
    """A bundle of such tables, with so many logs of one sync on the highest, and a script that
    goes on after `replay`.
    """
    path = f"/dev/dm-{len(tables) - 1}"
    script = ["ram 0 64", *(f"create {name} {name}" for name in tables), "replay", *then]
    return text_of(tables, script, [repeated(path, f"{path} sync 0 0", 1) for _ in range(logs)])


def held(levels: int, asks: int) -> Callable[[int], str]:
    """Flushes by thousands, held for an hour, and so many statuses meanwhile."""

    def of_size(size: int) -> str:
        tables = fans(levels, lambda line: "delay 1:0 0 3600000")
        return fan_bundle(tables, size, ["sleep 9", *["status d0"] * asks] if asks else [])

    return of_size


def falling(levels: int, step: int) -> Callable[[int], str]:
    """The same, each line's held for a little less than those of the line before."""
    return lambda size: fan_bundle(
        fans(levels, lambda line: f"delay 1:0 0 {3600000 - step * line}"), size, []
    )


def mode_changes(levels: int, count: int) -> Callable[[int], str]:
    """Flushes by thousands that enter a suspended device, which begins to run and is suspended
    again and again, each time before one of them goes on; by its history.
    """

    def of_size(size: int) -> str:
        lines = [f"{line} 1 linear 253:{{}} {line}" for line in range(64)]
        tables = {"x": ["0 64 linear 1:0 0"]} | {
            f"d{level}": [line.format(level) for line in lines] for level in range(levels)
        }
        script = ["ram 0 64", *(f"create {name} {name}" for name in tables), "suspend x", "replay"]
        script += ["resume x", "suspend x"] * count + ["resume x"]
        path = f"/dev/dm-{levels}"
        logs = [repeated(path, f"{path} sync 0 0", 1) for _ in range(size)]
        return text_of(tables, script, logs) + history_of(levels, size, 3 * count)

    return of_size


def history_of(levels: int, logs: int, controls: int) -> str:
    """The history of those: each sync is cut by all devices but the lowest, which its parts
    enter.
    """
    lines, first = ["control"] * (4 + levels), 1
    above = sum(64**level for level in range(levels))
    for log in range(1, logs + 1):
        lines += [f"line {log}"] * 3 + [f"map {it}" for it in range(first, first + above)]
        first += above + 64**levels
    return "\n".join(["== history", *lines, *["control"] * controls]) + "\n"


def deep_writes(size: int) -> str:
    """Writes of a mebibyte through 31 linear devices."""
    below = ["1:0", *(f"253:{level}" for level in range(30))]
    tables = {f"d{level}": [f"0 2048 linear {it} 0"] for level, it in enumerate(below)}
    script = ["ram 0 2048", *(f"create {name} {name}" for name in tables), "replay"]
    logs = [repeated("/dev/dm-30", "/dev/dm-30 write 0 1048576", size // 4 + 1) for _ in range(4)]
    return text_of(tables, script, logs)


def versions(count: int, every: int = 1000) -> Callable[[int], str]:
    """Reads in pieces of a device to which so many tables were loaded, of which one in so many has
    their sectors.
    """

    def of_size(size: int) -> str:
        tables = {"s": ["0 8 zero"], "b": ["0 65536 zero"], "top": ["0 65536 dust 253:0 0 512"]}
        script = ["ram 0 65536", "create low s"]
        script += [f"load low {'s' if place % every else 'b'}" for place in range(1, count + 1)]
        script += ["load low b", "resume low", "create top top", "replay"]
        read = "/dev/dm-1 read 4194304 1048576"
        return text_of(tables, script, [repeated("/dev/dm-1", read, size) for _ in range(16)])

    return of_size


def many_lost(size: int) -> str:
    """Syncs of a device on which thousands of writes stand lost."""
    tables = {"f": ["0 65536 flakey 1:0 0 0 3600 1 drop_writes"]}
    writes = opened("/dev/dm-0", [f"/dev/dm-0 write {512 * it} 512" for it in range(5 * size)])
    wait, sync = "/dev/dm-0 wait 9999999 0", "/dev/dm-0 sync 0 0"
    syncs = opened("/dev/dm-0", [wait, *[sync] * size])
    return text_of(tables, ["ram 0 65536", "create f f", "replay"], [writes, syncs])


def of_many_runs(size: int) -> str:
    """Reads of a mebibyte, whose answers have two thousand runs each."""
    writes = [
        opened("/dev/ram0", [f"/dev/ram0 write {512 * at} 512" for at in range(log, 2048, 2)])
        for log in range(2)
    ]
    wait, read = "/dev/ram0 wait 1000000 0", "/dev/ram0 read 0 1048576"
    reads = [opened("/dev/ram0", [wait, *[read] * (size // 4 + 1)]) for _ in range(4)]
    return text_of({}, ["ram 0 2048", "replay"], [*writes, *reads])


def marked_reads(line: str) -> Callable[[int], str]:
    """Reads of a mebibyte of sectors whose bytes differ, through 27 devices of such a line, which
    is given the device below and a byte of its own.
    """
    below = ["1:0", *(f"253:{level}" for level in range(1, 27))]

    def of_size(size: int) -> str:
        tables = {"w": ["0 2048 flakey 1:0 0 0 3600 5 corrupt_bio_byte 3 w 77 0"]} | {
            f"d{level}": [f"0 2048 {line.format(it, 8 * level + 9)}"]
            for level, it in enumerate(below)
        }
        script = ["ram 0 2048", *(f"create {name} {name}" for name in tables), "replay"]
        writes = opened("/dev/dm-0", [f"/dev/dm-0 write {512 * at} 512" for at in range(2048)])
        wait, read = "/dev/dm-27 wait 1000000 0", "/dev/dm-27 read 0 1048576"
        return text_of(tables, script, [writes, opened("/dev/dm-27", [wait, *[read] * size])])

    return of_size


def marked_writes(size: int) -> str:
    """Writes of a mebibyte, of which each of 31 devices changes another byte."""
    row = "0 2048 flakey {} 0 0 3600 5 corrupt_bio_byte {} w 7 0"
    below = ["1:0", *(f"253:{level}" for level in range(30))]
    tables = {f"d{level}": [row.format(it, 1 + 512 * level)] for level, it in enumerate(below)}
    script = ["ram 0 2048", *(f"create {name} {name}" for name in tables), "replay"]
    write = "/dev/dm-30 write 0 1048576"
    logs = [repeated("/dev/dm-30", write, min(size - at, 9990)) for at in range(0, size, 9990)]
    return text_of(tables, script, logs)


def unread_tables(count: int) -> Callable[[int], str]:
    """Tables of which so many can't be read."""

    def of_size(size: int) -> str:
        tables = {
            f"t{place}": [f"0 8 {'linaer' if place < count else 'linear'} 1:0 0"]
            for place in range(size)
        }
        return text_of(tables, ["ram 0 8", "create a t0", "replay"], [])

    return of_size


PROMPT = ("sim", "--prompt")
ALL = ("check", "--all")
FINDINGS = ("sim", "--eio", "--lost", "--corrupt", "--stale", "--misplaced", "--broken-sync")
FAMILIES = (
    Family(
        "same_value",
        ("sim",),
        ("sim",),
        "reads of sectors of which a byte was set to what it was",
        same_value("5 corrupt_bio_byte 1 w 20 0"),
        same_value("0"),
        2000,
        2,
        lambda: same_value("5 corrupt_bio_byte 1 w 20 0")(39000),
    ),
    Family(
        "statuses",
        PROMPT,
        PROMPT,
        "statuses of a device that holds many",
        held(4, 185),
        held(4, 0),
        8,
        2,
        lambda: held(6, 185)(27),
    ),
    Family(
        "falling_delays",
        PROMPT,
        PROMPT,
        "held requests of which the later ones are due first",
        falling(4, 1),
        falling(4, 0),
        8,
        2,
        lambda: falling(6, 1)(27),
    ),
    Family(
        "mode_changes",
        ("audit",),
        ("audit",),
        "a device that runs and is suspended again, with thousands of requests before it",
        mode_changes(2, 40),
        mode_changes(2, 1),
        8,
        7,
        lambda: mode_changes(3, 100)(15),
    ),
    Family(
        "watched_writes",
        ("sweep", "--last", "0", "--eio"),
        ("sim", "--seed", "0"),
        "findings over writes through 31 devices",
        deep_writes,
        deep_writes,
        1000,
        3,
        lambda: deep_writes(39000),
    ),
    Family(
        "traced",
        ("trace", "--prompt"),
        PROMPT,
        "a trace of thousands of held requests",
        held(4, 0),
        held(4, 0),
        8,
        5,
        lambda: held(6, 0)(7),
    ),
    Family(
        "short_versions",
        ("check",),
        ("check",),
        "hundreds of tables without a request's sectors",
        versions(993),
        versions(1),
        4,
        3,
        lambda: versions(993)(255),
    ),
    Family(
        "spread_versions",
        ("check",),
        ("check",),
        "hundreds of tables, of which one in 64 has a request's sectors",
        versions(960, 64),
        versions(15, 1),
        1,
        3,
        lambda: versions(960, 64)(30),
    ),
    Family(
        "deep_disks",
        ("disks",),
        ("sim",),
        "the disks after writes through 31 devices",
        deep_writes,
        deep_writes,
        400,
        4,
        lambda: deep_writes(4000),
    ),
    Family(
        "lost_syncs",
        ("sim", "--broken-sync"),
        ("sim",),
        "syncs of a device on which thousands of writes stand lost",
        many_lost,
        many_lost,
        500,
        8,
        lambda: many_lost(1998),
    ),
    Family(
        "marked_reads",
        ("sim",),
        ("sim",),
        "reads of sectors whose bytes differ, of which each device changes a byte",
        marked_reads("flakey {} 0 0 3600 5 corrupt_bio_byte {} r 9 0"),
        marked_reads("linear {} 0"),
        40,
        2,
        lambda: marked_reads("flakey {} 0 0 3600 5 corrupt_bio_byte {} r 9 0")(9990),
    ),
    Family(
        "marked_writes",
        ("trace",),
        ("sim",),
        "a trace of writes that 31 devices change",
        marked_writes,
        marked_writes,
        100,
        5,
        lambda: marked_writes(10000),
    ),
    Family(
        "found_reads",
        FINDINGS,
        ("sim",),
        "all findings over reads of sectors that thousands of lines wrote",
        marked_reads("linear {} 0"),
        marked_reads("linear {} 0"),
        300,
        2,
        lambda: marked_reads("linear {} 0")(9990),
    ),
    Family(
        "unread_tables",
        ALL,
        ALL,
        "many tables that can't be read",
        unread_tables(1000000),
        unread_tables(130),
        500,
        2,
        lambda: unread_tables(1000000)(400000),
    ),
)


class Spent(NamedTuple):
    """What a run took: processor seconds, the peak of memory, and the bytes that it wrote; and
    whether it was ended for its time.
    """

    seconds: float
    memory: int
    output: int
    is_ended: bool


def spent(program: str, words: Sequence[str], bundle: str, most: int = 3600) -> Spent:
    """One run of a program on a bundle, of so many processor seconds at most. A history that ends
    too early is a run, too.
    """

    def limit() -> None:
        resource.setrlimit(resource.RLIMIT_CPU, (most, most))

    with tempfile.TemporaryFile("w+") as text, tempfile.TemporaryFile() as output:
        text.write(bundle)
        text.seek(0)
        run = subprocess.Popen(
            [program, *words], stdin=text, stdout=output, stderr=output, preexec_fn=limit
        )
        _, status, usage = os.wait4(run.pid, 0)
        run.returncode = os.waitstatus_to_exitcode(status)
        return Spent(
            usage.ru_utime + usage.ru_stime,
            1024 * usage.ru_maxrss,
            output.seek(0, os.SEEK_END),
            run.returncode < 0,
        )


def whole_rows(program: str, most: int) -> Iterator[str]:
    """A line for each family at its whole size, in runs of so many processor seconds at most."""
    for family in FAMILIES:
        took = spent(program, family.words, family.whole(), most)
        seconds = f"over {most} s" if took.is_ended else f"{took.seconds:.1f} s"
        yield f"{family.name}, {' '.join(family.words)}: {seconds}, {took.memory / 1e6:.0f} MB"
