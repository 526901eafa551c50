"""aftermath_words: reads the words of tools/aftermath."""

from __future__ import annotations

import argparse
import os

from dmlab_tools.outage_words import add_words, wrong_outage
from dmlab_tools.shrink_words import read_jobs, read_pattern, read_seed
from dmlab_tools.sweep_parts import Seeds, count
from dmlab_tools.sweep_words import read_seeds
from dmlab_tools.tool_words import Words

MOST_SEEDS = 100000000


def read_words(help_text: str | None, arguments: list[str]) -> argparse.Namespace:
    """The words of the call. Those behind -- are the check."""
    at = arguments.index("--") if "--" in arguments else len(arguments)
    parser = Words("aftermath", help_text)
    parser.add_argument("bundles", nargs="+")
    add_words(parser)
    parser.add_argument("--recorded-disk")
    parser.add_argument("--seed", type=read_seed, default=0)
    parser.add_argument("--seeds", type=read_seeds)
    parser.add_argument("--prompt", action="store_true")
    parser.add_argument("--jobs", type=read_jobs, default=len(os.sched_getaffinity(0)))
    for word in ("--keep", "--into", "--program"):
        parser.add_argument(word)
    for word in ("--has", "--control-has"):
        parser.add_argument(word, type=read_pattern)
    words = parser.parse_args(arguments[:at])
    words.check = arguments[at + 1 :]
    if why := wrong(words) or wrong_outage(words):
        parser.error(why)
    words.prompt = words.prompt or bool(words.outage)
    if not any("{}" in word for word in words.check):
        words.check.append("{}")
    return words


def wrong(words: argparse.Namespace) -> str | None:
    """What is wrong with the words of the call, or nothing."""
    if not words.recording:
        return "--recording FILE is needed"
    if not words.check:
        return "a check is needed behind --, such as -- e2fsck -fn {}"
    return wrong_runs(words)


def wrong_runs(words: argparse.Namespace) -> str | None:
    """What is wrong with the words that tell the runs, or nothing."""
    if words.outage and words.seeds:
        return "--outage and --seeds don't go together"
    if (words.outage or words.seeds) and len(words.bundles) > 1:
        return "--outage and --seeds go with one bundle"
    if words.seeds and count(words.seeds) > MOST_SEEDS:
        return f"--seeds takes at most {MOST_SEEDS} seeds"
    return None


def chunks(seeds: Seeds, jobs: int) -> list[Seeds]:
    """The seeds in parts, several for each job."""
    size = max(1, min(10000, -(-count(seeds) // (4 * jobs))))
    return [
        Seeds(first, min(first + size - 1, seeds.last))
        for first in range(seeds.first, seeds.last + 1, size)
    ]
