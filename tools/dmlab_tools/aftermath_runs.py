"""aftermath_runs: the runs of a call of tools/aftermath, and what became of each."""

from __future__ import annotations

import argparse
import os
from concurrent.futures import ThreadPoolExecutor
from functools import partial
from typing import Callable, Iterator, NamedTuple

from dmlab_tools.aftermath_check import Checker, Once, Verdict, digest_of
from dmlab_tools.aftermath_process import Program
from dmlab_tools.aftermath_words import chunks
from dmlab_tools.fio_logs import Fault, Place
from dmlab_tools.outage_words import outages_of
from dmlab_tools.recorded_disks import Maker
from dmlab_tools.recorded_image import Image, difference, read_image
from dmlab_tools.recorded_scene import control_text, read_scene
from dmlab_tools.recording_file import Recording
from dmlab_tools.recording_lines import Span


class Run(NamedTuple):
    """A run: its name, what makes its bundle, its seed, how many runs it stands for, and what puts
    its device together.
    """

    name: str
    text: Callable[[], str]
    seed: int
    size: int
    maker: Maker


class Result(NamedTuple):
    """What became of a run: the digest of its image, and the verdict."""

    run: Run
    digest: str
    verdict: Verdict


def bundle_paths(words: list[str]) -> list[str]:
    """The bundles of the call; those of a folder are its files NAME.bundle."""
    found: list[str] = []
    for word in words:
        if not os.path.isdir(word):
            found.append(word)
            continue
        names = sorted(name for name in os.listdir(word) if name.endswith(".bundle"))
        if not names:
            raise Fault(Place(word, 0), "the folder has no file NAME.bundle")
        found += [os.path.join(word, name) for name in names]
    return found


def makers_of(paths: list[str], recording: Recording, span: Span) -> Iterator[Maker]:
    """What puts together the device of each bundle."""
    for path in paths:
        yield Maker(read_scene(path), recording, span)


def seed_runs(maker: Maker, words: argparse.Namespace, program: Program) -> list[Run]:
    """A run for each of the disks that the seeds give."""
    path, text = maker.scene.path, maker.scene.text
    parts = chunks(words.seeds, words.jobs)
    with ThreadPoolExecutor(words.jobs) as executor:
        found = list(executor.map(lambda its: program.digests(path, text, *its), parts))
    firsts: dict[str, tuple[int, int]] = {}
    for digest, first, many in (row for part in found for row in part):
        known = firsts.get(digest, (first, 0))
        firsts[digest] = known[0], known[1] + many
    return [
        Run(f"seed-{first}", partial(str, text), first, many, maker)
        for first, many in firsts.values()
    ]


def runs_of(makers: list[Maker], words: argparse.Namespace, program: Program) -> list[Run]:
    """The runs that the call asks for."""
    if words.seeds:
        return seed_runs(makers[0], words, program)
    if words.outage:
        return [
            Run(outage.name(), partial(outages.bundle, outage), words.seed, 1, makers[0])
            for outage, outages in outages_of(makers[0].scene, makers[0], words)
        ]
    return [
        Run(name_of(its.scene.path), partial(str, its.scene.text), words.seed, 1, its)
        for its in makers
    ]


def name_of(path: str) -> str:
    """The name of a run by that of its bundle's file."""
    return os.path.basename(path).removesuffix(".bundle")


class Runner:
    """Runs bundles, and asks the check about each device that differs from all before."""

    def __init__(self, program: Program, checker: Checker) -> None:
        self.program, self.checker = program, checker
        self.once: Once[tuple[str, Verdict]] = Once()

    def image(self, run: Run) -> Image:
        """The device after a run."""
        return run.maker.image(self.program.disks(run.name, run.text(), run.seed))

    def run(self, run: Run) -> Result:
        """Runs a bundle."""
        rows = self.program.disks(run.name, run.text(), run.seed)
        key = f"{id(run.maker)} {digest_of(rows.encode())}"
        return Result(run, *self.once.get(key, lambda: self.checked(run.maker.image(rows))))

    def checked(self, image: Image) -> tuple[str, Verdict]:
        """The digest of an image, and the verdict on it."""
        digest = image.digest()
        return digest, self.checker.verdict(digest, image)

    def control(self, maker: Maker) -> Verdict:
        """The verdict on the device without a fault, which has to be what the recording's entries
        give one after another.
        """
        wanted = maker.written()
        text = control_text(maker.scene)
        image = maker.image(self.program.disks(f"control of {maker.scene.path}", text, 0))
        at = difference(wanted, image)
        if at is not None:
            raise Fault(
                Place(f"control of {maker.scene.path}", 0),
                f"without a fault sector {at} of {maker.scene.device} isn't what the recording's "
                "entries give: nothing can be concluded from this bundle",
            )
        return self.checked(image)[1]


def check_recorded(maker: Maker, path: str) -> None:
    """Refuses a recorded disk that isn't what the recording's entries give."""
    wanted = maker.written()
    at = difference(wanted, read_image(path, wanted.size))
    if at is not None:
        raise Fault(
            Place(path, 0),
            f"sector {at} isn't what the entries of {maker.recording.path} give: record from an "
            "empty disk on, and take the disk as it is when the recorder ends",
        )
