"""aftermath_process: runs dmlab and the check, several at once, for tools/aftermath."""

from __future__ import annotations

import os
import signal
import subprocess
import threading
from typing import NamedTuple, Optional

from dmlab_tools.fio_logs import Fault, Place


class Answer(NamedTuple):
    """How a process ended, and what it wrote."""

    status: int
    output: bytes


class Processes:
    """The processes that run. An interrupt from the keyboard doesn't reach them."""

    def __init__(self) -> None:
        self.lock, self.ended = threading.Lock(), False
        self.running: set[subprocess.Popen[bytes]] = set()

    def begin(self, words: list[str], given: bool, both: bool) -> subprocess.Popen[bytes]:
        """Starts a process, unless all were ended."""
        with self.lock:
            if self.ended:
                raise Fault(Place(words[0], 0), "interrupted")
            process = subprocess.Popen(
                words,
                stdin=subprocess.PIPE if given else subprocess.DEVNULL,
                stdout=subprocess.PIPE,
                stderr=subprocess.STDOUT if both else None,
                start_new_session=True,
            )
            self.running.add(process)
        return process

    def run(self, words: list[str], given: Optional[bytes], both: bool) -> Answer:
        """Runs a process with an input or none. Its errors are part of its output if `both`."""
        process = self.begin(words, given is not None, both)
        output, _ = process.communicate(given)
        with self.lock:
            self.running.discard(process)
        return Answer(process.returncode, output)

    def stop(self) -> None:
        """Ends all processes, with those that they started, and begins no other."""
        with self.lock:
            self.ended = True
            for process in self.running:
                if process.poll() is None:
                    os.killpg(process.pid, signal.SIGKILL)


class Program:
    """The program on bundles."""

    def __init__(self, path: str, prompt: bool, processes: Processes) -> None:
        self.path, self.options, self.processes = path, ["--prompt"] * prompt, processes

    def run(self, words: list[str], name: str, text: str) -> str:
        """What the program writes on a bundle, which it has to take."""
        given = text.encode("ascii", "surrogateescape")
        answer = self.processes.run([self.path, *words, *self.options], given, False)
        output = answer.output.decode("ascii", "replace")
        if answer.status:
            first = output.partition("\n")[0]
            ended = f"`dmlab {' '.join(words)}` ended with status {answer.status}"
            raise Fault(Place(name, 0), first if first.startswith("refused ") else ended)
        return output

    def disks(self, name: str, text: str, seed: int) -> str:
        """The rows of the disks after a run."""
        return self.run(["disks", "--seed", str(seed)], name, text)

    def digests(self, name: str, text: str, first: int, last: int) -> list[tuple[str, int, int]]:
        """The digests of the disks after the seeds, each with its first seed and how many have
        it.
        """
        words = ["sweep", "--disks", "--first", str(first), "--last", str(last)]
        lines = [line.split() for line in self.run(words, name, text).splitlines()]
        return [
            (line[1], int(line[2].partition("=")[2]), int(line[3].partition("=")[2]))
            for line in lines
            if line[0] == "digest"
        ]
