"""shrink_words: reads the words of tools/shrink, and finds the files that they name."""

from __future__ import annotations

import argparse
import os
import re
import sys
from typing import Pattern

from dmlab_tools.fio_logs import Fault, Place, is_number
from dmlab_tools.sweep_parts import FINDINGS
from dmlab_tools.tool_words import Words

MOST_SEEDS = 10000


def read_seed(word: str) -> int:
    """A seed."""
    if not is_number(word):
        raise ValueError(word)
    return int(word)


def read_seeds(word: str) -> range:
    """The seeds from A to B."""
    found = re.fullmatch(r"([0-9]{1,19})\.\.([0-9]{1,19})", word)
    if not found or not 0 <= int(found[2]) - int(found[1]) < MOST_SEEDS:
        raise ValueError(word)
    return range(int(found[1]), int(found[2]) + 1)


def read_seconds(word: str) -> float:
    """A time above 0."""
    if not 0 < float(word) < 1e6:
        raise ValueError(word)
    return float(word)


def read_jobs(word: str) -> int:
    """How many runs may go on at once."""
    if not re.fullmatch("[1-9][0-9]{0,3}", word):
        raise ValueError(word)
    return int(word)


def read_pattern(word: str) -> re.Pattern[str]:
    """A regular expression."""
    try:
        return re.compile(word)
    except re.error as error:
        raise argparse.ArgumentTypeError(f"{word!r}: {error}") from error


def read_words(help_text: str | None, arguments: list[str]) -> argparse.Namespace:
    """The words of the call. Those behind -- are the command."""
    at = arguments.index("--") if "--" in arguments else len(arguments)
    parser = Words("shrink", help_text)
    parser.add_argument("bundle")
    parser.add_argument("--output-has", action="append", default=[], type=read_pattern)
    parser.add_argument("--seed", type=read_seed, default=0)
    parser.add_argument("--seeds", type=read_seeds, default=())
    parser.add_argument("--seconds", type=read_seconds, default=10.0)
    parser.add_argument("--program")
    parser.add_argument("-o", dest="output")
    parser.add_argument("--jobs", type=read_jobs)
    for finding in FINDINGS:
        parser.add_argument(f"--{finding}", action="append_const", dest="findings", const=finding)
    for word in ("--prompt", "--by-fault", "--history", "--renumber"):
        parser.add_argument(word, action="store_true")
    words = parser.parse_args(arguments[:at])
    words.command = arguments[at + 1 :]
    words.findings = [word for word in FINDINGS if word in (words.findings or ())]
    if why := wrong(words):
        parser.error(why)
    words.jobs = words.jobs or (1 if words.command else len(os.sched_getaffinity(0)))
    return words


def wrong(words: argparse.Namespace) -> str | None:
    """What is wrong with the words as a whole, or nothing."""
    patterns = bool(words.output_has or words.findings)
    seeded = patterns or any("{seed}" in word for word in words.command)
    if patterns == bool(words.command):
        return "a test is wanted: either a command behind --, or --output-has or a finding"
    if words.by_fault and not patterns:
        return "--by-fault goes with --output-has or a finding"
    if (words.seeds or words.history) and not seeded:
        return "--seeds and --history go with --output-has, with a finding, or with a command that has {seed}"
    if words.prompt and not patterns and not words.history:
        return "--prompt goes with --output-has, with a finding, or with --history"
    return None


def program_paths() -> list[str]:
    """Where the program may be: beside an installed tool, or where ./build puts it."""
    folder = os.path.dirname(os.path.dirname(os.path.realpath(__file__)))
    built = os.path.join(folder, "..", "crates", "dmlab", "out")
    places = [built] if os.path.basename(folder) == "tools" else [folder]
    return [os.path.join(it, name) for it in places for name in ("dmlab", "dmlab.unproved")]


def find_program(words: argparse.Namespace, tool: str = "shrink") -> str:
    """The path of the program."""
    for path in [words.program] if words.program else program_paths():
        if os.path.isfile(path) and os.access(path, os.X_OK):
            if path.endswith("/dmlab.unproved"):
                print(
                    f"{tool}: dmlab.unproved is an unproved build (./build makes the proved one)",
                    file=sys.stderr,
                )
            return os.path.abspath(path)
    place = Place(words.program or "crates/dmlab/out/dmlab", 0)
    raise Fault(place, "no program: ./build makes it, --program tells another")


def read_text(path: str) -> str:
    """The text of the bundle."""
    try:
        with open(path, encoding="ascii", errors="surrogateescape", newline="") as file:
            return file.read()
    except OSError as error:
        raise Fault(Place(path, 0), error.strerror) from error


def check_output(path: str) -> None:
    """Refuses a file that can't be written, before any search."""
    folder = os.path.dirname(os.path.realpath(path))
    if (
        os.path.exists(path)
        and not os.path.isfile(path)
        or not os.access(folder, os.W_OK | os.X_OK)
    ):
        raise Fault(Place(path, 0), "no file can be written there")


def write_output(path: str, text: str) -> None:
    """Puts the bundle into the file, whole or not at all."""
    target = os.path.realpath(path)
    beside = f"{target}.{os.getpid()}"
    try:
        with open(beside, "x", encoding="ascii") as file:
            file.write(text)
        os.replace(beside, target)
    except OSError as error:
        if os.path.exists(beside):
            os.remove(beside)
        raise Fault(Place(path, 0), error.strerror) from error
