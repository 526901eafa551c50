"""bundle_words: the words of a call of tools/bundle."""

from __future__ import annotations

import argparse
import re
from typing import Callable

from dmlab_tools.bundle_disks import MOST_SECTORS
from dmlab_tools.bundle_machine import NAME
from dmlab_tools.fio_logs import is_plain, pair
from dmlab_tools.time_words import HOUR, LEAST_WAIT, moment
from dmlab_tools.tool_words import Words


def disk(word: str) -> tuple[str, int, int | None]:
    """A word DISK=/dev/ramN[:SECTORS] as the disk, N and SECTORS, which is None where it is left
    out.
    """
    found = re.fullmatch(r"([!-~]+)=/dev/ram([0-9]{1,3})(?::([0-9]{1,5}))?", word)
    if not found or int(found[2]) > 255 or found[3] and not 0 < int(found[3]) <= MOST_SECTORS:
        raise ValueError(word)
    return found[1], int(found[2]), int(found[3]) if found[3] else None


def table(word: str) -> tuple[str, str]:
    """A word NAME=FILE as these two."""
    name, _, path = word.partition("=")
    if not path or not is_plain(name):
        raise ValueError(word)
    return name, path


def renaming(word: str) -> tuple[str, str]:
    """A word OLD=NEW as these two."""
    old, new = pair(word)
    if not re.fullmatch(NAME, new):
        raise ValueError(word)
    return old.removeprefix("/dev/mapper/"), new


def span(word: str) -> tuple[int, int | None]:
    """A word A..B as two moments. Without A it is the start, and without B there is no end."""
    begin, dots, end = word.partition("..")
    try:
        found = (moment(begin) if begin else 0, moment(end) if end else None)
    except ValueError:
        dots = ""
    if not dots or word == ".." or found[1] is not None and found[0] >= found[1]:
        raise argparse.ArgumentTypeError(f"{word} is no A..B with units, such as 1.5s..2s")
    return found


def pace(word: str) -> int:
    """The time of an entry of a recording, which dmlab has to take for a wait."""
    found = moment(word)
    if not LEAST_WAIT <= found <= HOUR:
        raise argparse.ArgumentTypeError(f"{word} is no time from {LEAST_WAIT}us to 3600s")
    return found


def count(word: str) -> int:
    """A number of lines, from 1 on."""
    if not re.fullmatch("[0-9]{1,9}", word) or int(word) == 0:
        raise ValueError(word)
    return int(word)


def arguments(text: str | None, given: list[str] | None = None) -> argparse.Namespace:
    """The words of the call, or those given. The text at the top of the tool is the help."""
    parser = Words("bundle", text)
    kinds: dict[str, Callable[[str], object]] = {
        "--tables": str,
        "--table": table,
        "--disk": disk,
        "--file": pair,
        "--only": str,
        "--rename": renaming,
    }
    for word, kind in kinds.items():
        parser.add_argument(word, action="append", default=[], type=kind)
    parser.add_argument("--device")
    parser.add_argument("--first", type=count)
    parser.add_argument("--between", type=span)
    for word in ("--compact", "--verify", "--split", "-m"):
        parser.add_argument(word, action="store_true")
    parser.add_argument("--log-writes")
    parser.add_argument("--pace", type=pace)
    parser.add_argument("--from", dest="begin")
    parser.add_argument("--to", dest="end")
    parser.add_argument("logs", nargs="*")
    words = parser.parse_intermixed_args(given)
    if why := wrong(words):
        parser.error(why)
    return words


def wrong(words: argparse.Namespace) -> str | None:
    """What is wrong with the words together, or nothing."""
    if not words.log_writes:
        if words.pace or words.begin is not None or words.end is not None:
            return "--pace, --from and --to go with --log-writes"
        return None if words.logs else "either logs of fio are needed or --log-writes"
    if words.logs or words.first or words.between or words.split or words.m or words.file:
        return "--log-writes takes no logs of fio, and no --first, --between, --split, --file, -m"
    return None if words.device else "--log-writes needs --device DEVICE"
