"""outage_words: the words of outages, for tools/outages and tools/aftermath."""

from __future__ import annotations

import argparse
import re
from typing import Iterator, NamedTuple

from dmlab_tools.fio_logs import Fault, Place
from dmlab_tools.outage_bundles import FAULTS, Outage, Outages, begin_of, faulty, writes_from
from dmlab_tools.recorded_disks import Maker
from dmlab_tools.recorded_scene import Scene
from dmlab_tools.time_words import moment


class At(NamedTuple):
    """When outages begin: each so many writes, at a mark, or at a moment."""

    each: int = 0
    mark: str = ""
    moment: int = 0


def read_outage(word: str) -> tuple[str, str]:
    """A word DEVICE=FAULT as these two."""
    device, equals, fault = word.partition("=")
    fault = " ".join(fault.split())
    if not device or faulty(fault, "/dev/ram0", "0") is None:
        raise argparse.ArgumentTypeError(f"{word!r} is no DEVICE=FAULT; a fault is {FAULTS}")
    return device.removeprefix("/dev/mapper/"), fault


def read_lengths(word: str) -> list[int]:
    """Times with commas between them."""
    try:
        found = [moment(it) for it in word.split(",")]
    except ValueError:
        found = [0]
    if not all(found):
        raise argparse.ArgumentTypeError(f"{word!r} is no time, such as 50ms or 1ms,10ms,1s")
    return found


def read_at(word: str) -> At:
    """One word that tells when outages begin."""
    if word == "every-write":
        return At(each=1)
    if found := re.fullmatch("every-([1-9][0-9]{0,4})", word):
        return At(each=int(found[1]))
    if word.startswith("mark=") and len(word) > 5:
        return At(mark=word[5:])
    try:
        return At(moment=moment(word))
    except ValueError as error:
        raise argparse.ArgumentTypeError(
            f"{word!r} is no every-write, every-N, mark=TEXT or moment such as 1.5s"
        ) from error


def read_ats(word: str) -> list[At]:
    """Words that tell when outages begin, with commas between them."""
    return [read_at(it) for it in word.split(",")]


def add_words(parser: argparse.ArgumentParser) -> None:
    """Adds the words of outages, and those of the recording's part."""
    parser.add_argument("--outage", action="append", default=[], type=read_outage)
    parser.add_argument("--for", dest="lengths", type=read_lengths)
    parser.add_argument("--at", action="append", default=[], type=read_ats)
    parser.add_argument("--recording")
    parser.add_argument("--from", dest="begin")
    parser.add_argument("--to", dest="end")


def wrong_outage(words: argparse.Namespace) -> str | None:
    """What is wrong with the words of outages, or nothing."""
    if words.outage and not (words.lengths and words.at):
        return "--outage needs --for LENGTH and --at MOMENT"
    if not words.outage and (words.lengths or words.at):
        return "--for and --at go with --outage"
    return None


def moments_of(scene: Scene, maker: Maker | None, at: At) -> list[int]:
    """The moments at which outages begin."""
    if at.each:
        return writes_from(scene, at.each)
    if at.mark:
        return [moment_of_mark(scene, maker, at.mark)]
    return [at.moment]


def moment_of_mark(scene: Scene, maker: Maker | None, mark: str) -> int:
    """The moment of the first operation behind a mark of the recording."""
    place = Place(f"--at mark={mark}", 0)
    if maker is None:
        raise Fault(place, "--recording FILE tells where the marks are")
    found = [entry.number for entry in maker.recording.entries if entry.mark == mark]
    if not found:
        raise Fault(place, f"{maker.recording.path} has no such mark")
    for it in scene.operations:
        if it.line in maker.lines and maker.lines[it.line].entry > found[0]:
            return begin_of(it)
    raise Fault(place, "no line of the log stands behind this mark")


def outages_of(
    scene: Scene, maker: Maker | None, words: argparse.Namespace
) -> Iterator[tuple[Outage, Outages]]:
    """The outages that are asked for, the lengths in their order and each by its moments."""
    ats = [at for group in words.at for at in group]
    moments = sorted({it for at in ats for it in moments_of(scene, maker, at)})
    makers = [Outages(scene, device, fault) for device, fault in words.outage]
    for length in words.lengths:
        for outages in makers:
            for begin in moments:
                yield Outage(outages.device, outages.fault, begin, length), outages
