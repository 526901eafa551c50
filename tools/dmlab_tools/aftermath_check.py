"""aftermath_check: runs a check on images and keeps its verdicts, for tools/aftermath."""

from __future__ import annotations

import hashlib
import os
import re
import shutil
import threading
from concurrent.futures import Future
from typing import Callable, Generic, NamedTuple, TypeVar

from dmlab_tools.aftermath_process import Answer, Processes
from dmlab_tools.fio_logs import Fault, Place
from dmlab_tools.recorded_image import Image
from dmlab_tools.tab_text import columns_of, line_of

FILE, LONGEST = "verdicts.tsv", 200
Value = TypeVar("Value")


class Verdict(NamedTuple):
    """How a check ended, and the last line that it wrote."""

    status: str
    said: str


def digest_of(data: bytes) -> str:
    """What a text is known by."""
    return hashlib.blake2b(data, digest_size=16).hexdigest()


class Once(Generic[Value]):
    """Finds each thing once, for all who ask for it at the same time."""

    def __init__(self) -> None:
        self.lock = threading.Lock()
        self.found: dict[str, Future[Value]] = {}

    def get(self, name: str, find: Callable[[], Value]) -> Value:
        """The thing of a name, which is found by the first who asks for it."""
        with self.lock:
            mine = name not in self.found
            future = self.found.setdefault(name, Future())
        if mine:
            try:
                future.set_result(find())
            except BaseException as error:
                future.set_exception(error)
        return future.result()


def last_line(output: bytes, path: str) -> str:
    """The last line of an output that has words, with {} in place of the image's path."""
    lines = [line for line in output.decode("utf-8", "replace").splitlines() if line.strip()]
    text = lines[-1].replace(path, "{}") if lines else ""
    return re.sub(r"\s+", " ", re.sub("[^ -~\t]", "?", text)).strip()[:LONGEST]


def find_check(words: list[str]) -> None:
    """Refuses a check that can't be started."""
    if not shutil.which(words[0]):
        raise Fault(
            Place(f"check {words[0]}", 0),
            "no such program: install it, make it executable, or tell its whole path",
        )


class Verdicts:
    """The verdicts so far, by the images' digests. With a folder they are kept in a file there."""

    def __init__(self, folder: str | None, words: list[str]) -> None:
        self.known: dict[str, Verdict] = {}
        self.lock, self.path = threading.Lock(), ""
        self.stamp = f"# verdicts of {digest_of(chr(0).join(words).encode())}"
        if folder:
            os.makedirs(folder, exist_ok=True)
            self.path = os.path.join(folder, FILE)
            self.read()

    def read(self) -> None:
        """Takes what the file has. A last line that was cut off is left out."""
        text = f"{self.stamp}\n"
        if os.path.exists(self.path):
            with open(self.path, encoding="ascii") as file:
                text = file.read()
        first, *lines = text[: text.rfind("\n") + 1].splitlines() or [self.stamp]
        if first != self.stamp:
            raise Fault(
                Place(self.path, 1), "verdicts of another check: take another folder for --into"
            )
        for number, line in enumerate(lines, 2):
            words = columns_of(Place(self.path, number), line)
            if len(words) != 3:
                raise Fault(Place(self.path, number), "no verdict: delete this line, or the file")
            self.known[words[0]] = Verdict(words[1], words[2])
        with open(self.path, "w", encoding="ascii") as file:
            file.write("".join(f"{line}\n" for line in (first, *lines)))

    def add(self, digest: str, verdict: Verdict) -> None:
        """Keeps a verdict."""
        with self.lock:
            self.known[digest] = verdict
            if self.path:
                with open(self.path, "a", encoding="ascii") as file:
                    file.write(line_of([digest, *verdict]))


class Checker:
    """Runs the check on each image that has no verdict yet."""

    def __init__(self, words: list[str], room: str, verdicts: Verdicts, its: Processes) -> None:
        self.words, self.room, self.verdicts, self.processes = words, room, verdicts, its
        self.once: Once[Verdict] = Once()

    def verdict(self, digest: str, image: Image) -> Verdict:
        """The verdict on an image."""
        return self.once.get(digest, lambda: self.find(digest, image))

    def find(self, digest: str, image: Image) -> Verdict:
        """The verdict that is known, or that of the check."""
        if digest not in self.verdicts.known:
            self.verdicts.add(digest, self.run(digest, image))
        return self.verdicts.known[digest]

    def run(self, digest: str, image: Image) -> Verdict:
        """Runs the check on an image."""
        path = os.path.join(self.room, f"{digest}.img")
        try:
            image.save(path)
            words = [word.replace("{}", path) for word in self.words]
            status, output = self.started(words)
        finally:
            if os.path.exists(path):
                os.remove(path)
        told = str(status) if status >= 0 else f"signal {-status}"
        return Verdict(told, last_line(output, path))

    def started(self, words: list[str]) -> Answer:
        """What the check answers. One that can't be started is told."""
        try:
            return self.processes.run(words, None, True)
        except OSError as error:
            raise Fault(
                Place(f"check {words[0]}", 0),
                f"it can't be started: {error.strerror}: a script needs a first line such as "
                "#!/bin/sh",
            ) from error
