"""sweep_words: reads the words of tools/sweep."""

from __future__ import annotations

import argparse
import os
import re

from dmlab_tools.fio_logs import is_number
from dmlab_tools.sweep_parts import FINDINGS, NONE, Seeds, count, share
from dmlab_tools.tool_words import Words

MOST_PARTS = 1000000
CHUNK = 10000


def read_seeds(word: str) -> Seeds:
    """The seeds from A to B."""
    first, _, last = word.partition("..")
    if not is_number(first) or not is_number(last) or int(first) > int(last):
        raise ValueError(word)
    return Seeds(int(first), int(last))


def read_count(word: str) -> int:
    """A number above 0."""
    if not re.fullmatch("[0-9]{1,18}", word) or int(word) == 0:
        raise ValueError(word)
    return int(word)


def read_words(help_text: str | None, arguments: list[str]) -> argparse.Namespace:
    """The words of the call."""
    parser = Words("sweep", help_text)
    parser.add_argument("bundle", nargs="?")
    parser.add_argument("--seeds", type=read_seeds)
    for word in ("--chunk", "--jobs", "--part", "--of"):
        parser.add_argument(word, type=read_count)
    for word in ("--program", "--into", "--join"):
        parser.add_argument(word)
    for word in ("--prompt", *(f"--{finding}" for finding in FINDINGS), "--by-line", "--fail"):
        parser.add_argument(word, action="store_true")
    words = parser.parse_args(arguments)
    if why := wrong_join(words) if words.join is not None else wrong_run(words):
        parser.error(why)
    return words if words.join is not None else completed(parser, words)


def completed(parser: argparse.ArgumentParser, words: argparse.Namespace) -> argparse.Namespace:
    """The words of a run, with those that were left out, and with the seeds that are wanted."""
    words.chunk = words.chunk or CHUNK
    words.jobs = words.jobs or len(os.sched_getaffinity(0))
    words.findings = ",".join(asked(words)) or NONE
    words.wanted = share(words.seeds, words.part or 1, words.of or 1)
    if count(words.wanted) // words.chunk > MOST_PARTS:
        parser.error(f"--chunk {words.chunk} makes more than {MOST_PARTS} parts")
    return words


def asked(words: argparse.Namespace) -> list[str]:
    """The findings that are asked for."""
    return [word for word in FINDINGS if getattr(words, word.replace("-", "_"))]


def wrong_join(words: argparse.Namespace) -> str | None:
    """What is wrong with the words of a join, or nothing."""
    others = ("bundle", "chunk", "jobs", "part", "of", "program", "into", "prompt", "by_line")
    if any(getattr(words, other) for other in others) or asked(words) not in ([], ["eio"]):
        return "--join goes with --seeds, --eio and --fail, and with nothing else"
    return None


def wrong_run(words: argparse.Namespace) -> str | None:
    """What is wrong with the words of a run, or nothing."""
    if not words.bundle or not words.seeds or not words.into:
        return "either a bundle, --seeds and --into are wanted, or --join"
    if bool(words.part) != bool(words.of):
        return "--part and --of go together"
    if words.part and words.part > words.of:
        return f"--part is one of 1 to {words.of}"
    if words.fail:
        return "--fail goes with --join"
    if words.by_line and not asked(words):
        return "--by-line wants a finding to look for"
    return None
