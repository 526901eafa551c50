"""bench_runs: runs a program on a bundle, and tells how long it took, its events and its memory,
for tools/bench.
"""

from __future__ import annotations

import ctypes
import hashlib
import os
import re
import resource
import subprocess
import tempfile
import time
from typing import IO, NamedTuple, Sequence

PR_SET_CHILD_SUBREAPER = 36
# The shell that starts a program and ends at once. A process that python itself starts is told
# python's own memory as its peak where that is more; one that the small shell starts is not.
START = 'input=$1; shift; "$@" < "$input" &'


class Counted(NamedTuple):
    """What a run told: its events, its peak of memory in bytes, the seconds it took, and a word
    for its output.
    """

    events: int
    memory: int
    seconds: float
    digest: str


class Fault(Exception):
    """A program or a bundle that can't be measured, and why."""


def last_lines(file: IO[bytes]) -> list[str]:
    """The last two lines of a file."""
    file.seek(max(0, file.seek(0, os.SEEK_END) - 4096))
    return file.read().decode(errors="replace").rstrip("\n").split("\n")[-2:]


def events_of(lines: list[str]) -> int | None:
    """The events that a run's end tells: the steps and the clock's, or for `check` the budget.

    By threads a line that says how many each thread fired stands behind it.
    """
    end = lines[0] if lines[-1].startswith("fired ") else lines[-1]
    if found := re.fullmatch(r"done steps=(\d+) clock=(\d+) now=\d+", end):
        return int(found[1]) + int(found[2])
    if found := re.fullmatch(r"accepted budget=(\d+)", end):
        return int(found[1])
    return None


def digest_of(file: IO[bytes]) -> str:
    """A word for all that a file has."""
    digest = hashlib.sha256()
    file.seek(0)
    while piece := file.read(1 << 20):
        digest.update(piece)
    return digest.hexdigest()


def is_wrong(status: int, output: IO[bytes], errors: IO[bytes]) -> str:
    """Why a run's end isn't that of a bundle that was run to its end, or nothing."""
    lines = last_lines(output)
    if status == 0 and events_of(lines) is not None:
        return ""
    return f"status {status}, {last_lines(errors)[-1] or lines[-1] or 'and nothing was written'}"


def counted(program: str, words: Sequence[str], path: str) -> Counted:
    """One run of a program with its output kept in a file."""
    ctypes.CDLL(None).prctl(PR_SET_CHILD_SUBREAPER, 1, 0, 0, 0)
    with tempfile.TemporaryFile() as output, tempfile.TemporaryFile() as errors:
        start = time.perf_counter()
        shell = ["/bin/sh", "-c", START, "sh", path, program, *words]
        subprocess.run(shell, stdout=output, stderr=errors, check=True)
        _, status, usage = os.wait4(-1, 0)
        seconds = time.perf_counter() - start
        if why := is_wrong(os.waitstatus_to_exitcode(status), output, errors):
            raise Fault(f"{program} {' '.join(words)}: {why}")
        return Counted(
            events_of(last_lines(output)) or 0, usage.ru_maxrss * 1024, seconds, digest_of(output)
        )


def timed(program: str, words: Sequence[str], path: str) -> float:
    """The seconds of one run of a program, from its start to its end, with its output to
    /dev/null.
    """
    with open(path, "rb") as bundle:
        start = time.perf_counter()
        status = subprocess.run(
            [program, *words], stdin=bundle, stdout=subprocess.DEVNULL
        ).returncode
        seconds = time.perf_counter() - start
    if status:
        raise Fault(f"{program} {' '.join(words)}: status {status}")
    return seconds


def processor_seconds() -> float:
    """The processor's seconds of all processes that this one has started and that have ended."""
    usage = resource.getrusage(resource.RUSAGE_CHILDREN)
    return usage.ru_utime + usage.ru_stime


def limited(
    program: str, words: Sequence[str], path: str, most: float
) -> tuple[int, float] | None:
    """The events and processor seconds of one run, or None where it takes more than so many
    seconds and is ended.
    """
    with open(
        path, "rb"
    ) as bundle, tempfile.TemporaryFile() as output, tempfile.TemporaryFile() as errors:
        start = processor_seconds()
        try:
            status = subprocess.run(
                [program, *words], stdin=bundle, stdout=output, stderr=errors, timeout=most
            ).returncode
        except subprocess.TimeoutExpired:
            return None
        seconds = processor_seconds() - start
        if why := is_wrong(status, output, errors):
            raise Fault(f"{program} {' '.join(words)}: {why}")
        return events_of(last_lines(output)) or 0, seconds
