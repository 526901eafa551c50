"""shrink_run: runs commands for a limited time, some at once, for tools/shrink."""

from __future__ import annotations

import os
import signal
import subprocess
import threading
from typing import BinaryIO, NamedTuple


class Answer(NamedTuple):
    """What a command answered; no status if it took too long."""

    status: int | None
    output: str


# The status of a command that took too long.
SLOW = None


class Running:
    """Runs commands for so many seconds at most; then each is killed, with what it started."""

    def __init__(self, seconds: float) -> None:
        self.seconds, self.lock, self.is_stopped = seconds, threading.Lock(), False
        self.processes: set[subprocess.Popen[bytes]] = set()

    def run(self, words: list[str], bundle: BinaryIO) -> Answer:
        """Runs a command on a file."""
        process = self.begin(words, bundle)
        try:
            output = process.communicate(timeout=self.seconds)[0]
            return Answer(process.returncode, output.decode("utf-8", "replace"))
        except subprocess.TimeoutExpired:
            return Answer(SLOW, "")
        finally:
            self.end(process)

    def begin(self, words: list[str], bundle: BinaryIO) -> subprocess.Popen[bytes]:
        """Starts a command, unless all were stopped."""
        with self.lock:
            if self.is_stopped:
                raise KeyboardInterrupt
            process = subprocess.Popen(
                words,
                stdin=bundle,
                stdout=subprocess.PIPE,
                stderr=subprocess.DEVNULL,
                start_new_session=True,
            )
            self.processes.add(process)
        return process

    def end(self, process: subprocess.Popen[bytes]) -> None:
        """Kills a command that hasn't ended."""
        if process.returncode is None:
            os.killpg(process.pid, signal.SIGKILL)
            process.communicate()
        with self.lock:
            self.processes.discard(process)

    def stop(self) -> None:
        """Kills all that run, and starts no other until `go_on`."""
        with self.lock:
            self.is_stopped = True
            for process in self.processes:
                if process.poll() is None:
                    os.killpg(process.pid, signal.SIGKILL)

    def go_on(self) -> None:
        """Lets commands start again."""
        self.is_stopped = False
