"""bench_loads: bundles of about so many events, for tools/bench and tests/bench.sh.

What an operation takes is worked out from the rules of the budget in docs/FORMATS.md: 1 for its
line, 1 on a disk, 2 on a mapped device beside what its pieces take, and 1 for each piece that is
held. So a load has the events that were asked for, but for those of the clock and for less than
one operation. The same name and number give the same bytes.
"""

from __future__ import annotations

import random
from typing import Callable, Iterable, Mapping, NamedTuple

# The limits of docs/FORMATS.md that a load comes near to.
MOST_LINES, MOST_LOGS, MOST_BUDGET, MOST_BYTES = 10000, 64, 16777216, 16777216
# The lines of a log beside its operations: add, open and close.
OPENING = 3


class Load(NamedTuple):
    """A load: its name, the program's words, one line that says what it is, and the function that
    makes its bundle.
    """

    name: str
    words: tuple[str, ...]
    remark: str
    make: Callable[[int], str]


def text_of(
    tables: Mapping[str, Iterable[str]], script: Iterable[str], logs: Iterable[Iterable[str]]
) -> str:
    """A bundle of tables by name, lines of the script, and lines of each log."""
    parts = [line for name, rows in tables.items() for line in (f"== table {name}", *rows)]
    parts += ["== script", *script]
    for number, lines in enumerate(logs, 1):
        parts += [f"== log l{number}", "fio version 2 iolog", *lines]
    return "\n".join(parts) + "\n"


def opened(path: str, lines: Iterable[str]) -> list[str]:
    """The lines with the file's add, open and close around them."""
    return [f"{path} add", f"{path} open", *lines, f"{path} close"]


def spread(count: int, logs: int) -> list[int]:
    """How many of so many lines each log has."""
    return [count // logs + (log < count % logs) for log in range(logs)]


def logs_of(
    path: str, sectors: int, length: int, count: int, logs: int, draw: random.Random
) -> list[list[str]]:
    """Logs of reads and writes of so many bytes at drawn places of a device, each place a multiple
    of the length.
    """
    logs = max(logs, -(-count // (MOST_LINES - OPENING)))
    places = sectors * 512 // length
    return [
        opened(
            path,
            [
                f"{path} {draw.choice(('read', 'write'))} {length * draw.randrange(places)} {length}"
                for _ in range(part)
            ],
        )
        for part in spread(count, logs)
    ]


def operations(events: int, each: int, beside: int, logs: int) -> int:
    """How many operations of so many events each are asked for, where the rest of the bundle takes
    some beside.
    """
    count = max(1, (events - beside - OPENING * logs) // each)
    extra = max(0, -(-count // (MOST_LINES - OPENING)) - logs)
    return max(1, count - extra * OPENING // each)


def script_of(sectors: int, names: Iterable[str]) -> list[str]:
    """A script that creates the devices in this order, on one disk, and replays the logs."""
    return [f"ram 0 {sectors}", *(f"create {name} {name}" for name in names), "replay"]


def stack(events: int) -> str:
    """8 KiB on four devices, the lowest of blocks of 512 bytes: 1 + 2 * 4 + 16 events an
    operation.
    """
    tables = {
        "low": ["0 2048 dust /dev/ram0 0 512"],
        "flaky": ["0 2048 flakey /dev/dm-0 0 0 1 2 random_read_corrupt 1000000"],
        "middle": ["0 2048 linear /dev/dm-1 0"],
        "top": ["0 2048 linear /dev/dm-2 0"],
    }
    count = operations(events, 25, 5, 16)
    logs = logs_of("/dev/dm-3", 2048, 8192, count, 16, random.Random(f"stack {events}"))
    return text_of(tables, script_of(2048, tables), logs)


def many(events: int) -> str:
    """8 KiB of 64 logs on two devices, the lower one of blocks of 512 bytes: 1 + 2 * 2 + 16 events
    an operation.
    """
    tables = {"low": ["0 2048 dust /dev/ram0 0 512"], "top": ["0 2048 linear /dev/dm-0 0"]}
    count = operations(events, 21, 3, MOST_LOGS)
    logs = logs_of("/dev/dm-1", 2048, 8192, count, MOST_LOGS, random.Random(f"logs {events}"))
    return text_of(tables, script_of(2048, tables), logs)


def held(events: int) -> str:
    """4 KiB of 64 logs, cut into 8 pieces of which each is held: 1 + 2 + 8 * (2 + 1 + 1) events an
    operation.
    """
    delays = [
        f"{32 * line} 32 delay /dev/ram0 {32 * line} {1 + 13 * line % 40}" for line in range(64)
    ]
    tables = {"low": delays, "top": ["0 2048 dust /dev/dm-0 0 512"]}
    count = operations(events, 35, 3, MOST_LOGS)
    logs = logs_of("/dev/dm-1", 2048, 4096, count, MOST_LOGS, random.Random(f"held {events}"))
    return text_of(tables, script_of(2048, tables), logs)


def flushes(events: int) -> str:
    """Syncs of 64 lines over 64 lines, 1 + 2 + 64 * (2 + 64) events each; the rest on the lower, 1
    + 2 + 64 each.
    """
    tables = {
        name: [f"{at} 1 linear {below} {at}" for at in range(64)]
        for name, below in (("low", "/dev/ram0"), ("top", "/dev/dm-0"))
    }
    left = events - 3 - 8 * 2 * OPENING
    wide, left = divmod(left, 4227)
    lines = ["/dev/dm-1 sync 0 0"] * wide + ["/dev/dm-0 sync 0 0"] * (left // 67)
    random.Random(f"flushes {events}").shuffle(lines)
    logs = [opened("/dev/dm-0", opened("/dev/dm-1", lines[log::8])) for log in range(8)]
    return text_of(tables, script_of(64, tables), logs)


def big(events: int) -> str:
    """1 MiB on two devices, the lower one of blocks of 4,096 bytes: 1 + 2 * 2 + 256 events an
    operation.
    """
    tables = {"low": ["0 65536 dust /dev/ram0 0 4096"], "top": ["0 65536 linear /dev/dm-0 0"]}
    count = operations(events, 261, 3, 8)
    logs = logs_of("/dev/dm-1", 65536, 1048576, count, 8, random.Random(f"big {events}"))
    return text_of(tables, script_of(65536, tables), logs)


LOADS = (
    Load(
        "stack",
        ("sim", "--seed", "1"),
        "8 KiB reads and writes of 16 logs, linear over linear over flakey over dust",
        stack,
    ),
    Load(
        "logs", ("sim", "--seed", "1"), "8 KiB reads and writes of 64 logs, linear over dust", many
    ),
    Load(
        "held",
        ("sim", "--seed", "1"),
        "4 KiB reads and writes of 64 logs, dust over 64 delay lines",
        held,
    ),
    Load("flushes", ("sim", "--seed", "1"), "syncs of 8 logs, 64 lines over 64 lines", flushes),
    Load("big", ("sim", "--seed", "1"), "1 MiB reads and writes of 8 logs, linear over dust", big),
    Load("workers", ("threads",), "the bundle of `logs`, run by threads", many),
    Load("crowd", ("threads",), "the bundle of `flushes`, run by threads", flushes),
    Load(
        "reading", ("check",), "the bundle of `stack`, read and judged by `check`, not run", stack
    ),
)
