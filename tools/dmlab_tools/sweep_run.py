"""sweep_run: runs the program on ranges of seeds, several processes at once, and keeps the rows,
for tools/sweep.
"""

from __future__ import annotations

import argparse
import collections
import concurrent.futures
import hashlib
import io
import os
import signal
import socket
import subprocess
import threading
from typing import Callable, Iterable, NoReturn, Optional, cast

from dmlab_tools.fio_logs import Fault, Place
from dmlab_tools.sweep_found import (
    Count,
    came_first,
    line_of,
    names_of,
    read_counts,
    read_findings,
)
from dmlab_tools.sweep_parts import END, NONE, Seeds, Stamp, Tally, count, head_of, name, read_rows


def digest_of(data: bytes) -> str:
    """The SHA-256 of some bytes."""
    return hashlib.sha256(data).hexdigest()


def read_bytes(path: str) -> bytes:
    """What a file has."""
    with open(path, "rb") as file:
        return file.read()


def options_of(words: argparse.Namespace) -> list[str]:
    """The options that each run gets beside its seeds."""
    findings = words.findings.split(",") if words.findings != NONE else []
    by_line = ["--by-line"] * words.by_line
    return [*["--prompt"] * words.prompt, *(f"--{word}" for word in findings), *by_line]


def call_of(program: str, seeds: Seeds, options: list[str]) -> list[str]:
    """The words that run a range of seeds."""
    return [program, "sweep", "--first", str(seeds.first), "--last", str(seeds.last), *options]


class Runner:
    """Runs the program on one bundle, which is read once, so that all rows are of the same bytes."""

    def __init__(self, words: argparse.Namespace, program: str) -> None:
        self.path, self.program, self.folder, self.options = (
            words.bundle,
            program,
            words.into,
            options_of(words),
        )
        self.bundle = read_bytes(words.bundle)
        prompt, by_line = ("yes" if word else "no" for word in (words.prompt, words.by_line))
        digests = digest_of(self.bundle), digest_of(read_bytes(program))
        self.stamp = Stamp(*digests, prompt, words.findings, by_line)
        self.lock, self.fault = threading.Lock(), cast(Optional[Exception], None)
        self.processes: set[subprocess.Popen[bytes]] = set()

    def run_all(self, work: Iterable[Seeds], jobs: int, tell: Callable[[Seeds], None]) -> None:
        """Runs each range of seeds, so many at once. After a fault no other begins, and those that
        have begun are kept.
        """
        executor = concurrent.futures.ThreadPoolExecutor(jobs)
        try:
            for future in concurrent.futures.as_completed(
                [executor.submit(self.run, seeds) for seeds in work]
            ):
                if not future.exception():
                    tell(future.result())
        except KeyboardInterrupt:
            self.stop()
            raise
        finally:
            executor.shutdown()
        if self.fault:
            raise self.fault

    def stop(self) -> None:
        """Ends all processes, with those that they started, and begins no other."""
        with self.lock:
            self.fault = Fault(Place(self.path, 0), "interrupted")
            for process in self.processes:
                if process.poll() is None:
                    os.killpg(process.pid, signal.SIGKILL)

    def run(self, seeds: Seeds) -> Seeds:
        """Runs a range of seeds, and answers it."""
        try:
            self.keep(seeds, self.checked(seeds, self.output(seeds)))
        except Exception as fault:
            with self.lock:
                self.fault = self.fault or fault
            raise
        return seeds

    def begin(self, seeds: Seeds) -> subprocess.Popen[bytes]:
        """Starts a process, which an interrupt from the keyboard doesn't reach. After a fault none
        is started.
        """
        with self.lock:
            if self.fault:
                raise self.fault
            words, pipe = call_of(self.program, seeds, self.options), subprocess.PIPE
            process = subprocess.Popen(
                words, stdin=pipe, stdout=pipe, stderr=pipe, start_new_session=True
            )
            self.processes.add(process)
        return process

    def output(self, seeds: Seeds) -> bytes:
        """What the program writes for a range of seeds. It has to end well."""
        process = self.begin(seeds)
        output, told = process.communicate(self.bundle)
        with self.lock:
            self.processes.remove(process)
        if process.returncode:
            self.refuse(seeds, process.returncode, output, told)
        return output

    def refuse(self, seeds: Seeds, status: int, output: bytes, told: bytes) -> NoReturn:
        """Tells why the program ran no sweep: a refused bundle, or its status."""
        why = output.split(b"\n")[0].decode("ascii", "replace")
        if status != 1 or not why.startswith("refused "):
            why = f"the program ended with status {status} on the seeds {name(seeds)}"
        raise Fault(
            Place(self.path, 0), "\n".join([why, *told.decode("utf-8", "replace").splitlines()])
        )

    def checked(self, seeds: Seeds, output: bytes) -> bytes:
        """What is kept of an output, once it is looked at."""
        place = Place(f"output of the program for the seeds {name(seeds)}", 1)
        if self.stamp.findings == NONE:
            return self.checked_rows(seeds, output, place)
        if self.stamp.by_line == "yes":
            return self.checked_counts(seeds, output, place)
        collections.deque(read_findings(io.BytesIO(output), place, seeds, self.stamp.findings), 0)
        return output

    def checked_counts(self, seeds: Seeds, output: bytes, place: Place) -> bytes:
        """The counts of an output, in the order in which their findings came first."""
        counts = read_counts(io.BytesIO(output), place, seeds, self.stamp.findings)
        lines = [line_of(it, count(seeds)) for it in came_first(counts, self.seed_counts)]
        return names_of(True) + b"".join(lines)

    def seed_counts(self, seed: int) -> list[Count]:
        """The counts of one seed, which are in the order of its findings."""
        seeds = Seeds(seed, seed)
        place = Place(f"output of the program for the seeds {name(seeds)}", 1)
        output = io.BytesIO(self.output(seeds))
        return read_counts(output, place, seeds, self.stamp.findings)

    def checked_rows(self, seeds: Seeds, output: bytes, place: Place) -> bytes:
        """The rows of an output, which has to have one for each seed, and the digests that these
        make.
        """
        file, tally = io.BytesIO(output), Tally()
        for row in read_rows(file, place, seeds):
            tally.add(row)
        rows = file.tell()
        if output[rows:] != b"".join(tally.lines()):
            raise Fault(
                Place(self.path, 0),
                f"the program's digests of the seeds {name(seeds)} aren't those of its rows",
            )
        return output[:rows]

    def keep(self, seeds: Seeds, rows: bytes) -> None:
        """Puts the rows into their file, which has its name once all of it is on the disk."""
        if digest_of(read_bytes(self.program)) != self.stamp.program:
            raise Fault(Place(self.program, 0), "another program than when the sweep began")
        target = os.path.join(self.folder, f"{seeds.first}-{seeds.last}.rows")
        beside = f"{target}.{socket.gethostname()}.{os.getpid()}"
        try:
            with open(beside, "wb") as file:
                file.write(head_of(self.stamp, seeds).encode() + rows + END)
                file.flush()
                os.fsync(file.fileno())
            os.replace(beside, target)
        finally:
            if os.path.exists(beside):
                os.remove(beside)
