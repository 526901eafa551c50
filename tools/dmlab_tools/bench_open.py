"""bench_open: bundles that run long for what they have, and that nothing mends yet, for tools/bench
--worst.
"""

from __future__ import annotations

from typing import Callable, Iterator, NamedTuple, Sequence

from dmlab_tools.bench_families import FINDINGS, spent
from dmlab_tools.bench_loads import opened, text_of

# A script that every bundle of one disk may have, and a wait until others have written.
PLAIN, LATER = ["ram 0 2048", "replay"], "wait 9999999 0"


class Open(NamedTuple):
    """A bundle that runs long: its name, the program's words, what is dear in it, and its text."""

    name: str
    words: Sequence[str]
    remark: str
    make: Callable[[], str]


def read_later(path: str, count: int) -> list[str]:
    """A log that reads a mebibyte so often, once others have written."""
    return opened(path, [f"{path} {LATER}", *[f"{path} read 0 1048576"] * count])


def changed_reads() -> str:
    """Reads of sectors in each of which a byte was changed, and of whose answer each of 28 devices
    changes another; the last sector's line fails, so that the answers are short.
    """
    change = "0 2048 flakey {} 0 0 3600 5 corrupt_bio_byte {} {} 77 0"
    tables = {"w": [change.format("1:0", 1, "w")], "u": ["0 2048 dust 253:0 0 512"]}
    for level in range(28):
        below = f"253:{level + 1}" if level else "1:0"
        tables[f"d{level}"] = [change.format(below, level + 2, "r")]
    tables["e"] = ["0 2047 linear 253:29 0", "2047 1 error"]
    script = ["ram 0 2048", *(f"create {name} {name}" for name in tables), "replay"]
    write = opened("/dev/dm-1", ["/dev/dm-1 write 0 1048576"])
    return text_of(tables, script, [write, read_later("/dev/dm-30", 150)])


def many_writers() -> str:
    """Reads of 2,048 sectors, each of which another line has trimmed."""
    trims = opened("/dev/ram0", [f"/dev/ram0 trim {512 * it} 512" for it in range(2048)])
    return text_of({}, PLAIN, [trims, *[read_later("/dev/ram0", 500)] * 4])


def unread_parts() -> str:
    """A thousand tables that can't be read."""
    return text_of({f"a{it}": ["0 8 linea 1:0 0"] for it in range(1000)}, PLAIN, [])


OPEN = (
    Open("changed_reads", ("sim",), "reads of changed sectors", changed_reads),
    Open("many_writers", FINDINGS, "reads of many writers' sectors", many_writers),
    Open("many_writers", ("trace",), "the same, traced", many_writers),
    Open("unread_parts", ("check", "--all"), "many parts that can't be read", unread_parts),
)


def open_rows(program: str, most: int) -> Iterator[str]:
    """A line for each of them, in runs of so many processor seconds at most."""
    for it in OPEN:
        took = spent(program, it.words, it.make(), most)
        seconds = f"over {most} s" if took.is_ended else f"{took.seconds:.1f} s"
        yield f"{it.name}, {' '.join(it.words)}: {seconds}, {took.memory / 1e6:.0f} MB, {it.remark}"
