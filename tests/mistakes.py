#!/usr/bin/env python3
"""tests/mistakes.py: breaks accepted bundles by one mistake, by chance, and does what it is told.

The bundles are those of examples/ and of tests/rows that `dmlab check` accepts. A mistake leaves
out, doubles, exchanges or misspells one word, one line or one part. If the bundle is then refused,
each line that standard error proposes is put into its place, and the bundle is checked again:

- the same refusal may not come again, neither at its line nor where a new line before it puts it;
- a device that a proposal names stands in the bundle, and one that it puts in the place of another
  word is at most two letters off that word; one that it puts between words, or on a line that
  stands twice, may be any of these, one that it creates is named by some line, and words that are
  parted or joined are left alone.

One line for each case that fails, then the seed and what became of the proposals, with how many of
them give the bundle back, and at the end 'N passed, M failed'. It wants the proved program.
`--seed N` takes another seed, `--refusals N` goes on up to so many refusals, `--program FILE` tries
another program, `--show` writes each case.
"""

from __future__ import annotations

import argparse
import collections
import glob
import multiprocessing
import os
import random
import re
import subprocess
import sys
from typing import Callable, Counter, Iterator, List, NamedTuple, Optional, Sequence, Tuple

ROOT = os.path.dirname(os.path.dirname(os.path.abspath(__file__)))
DMLAB = f"{ROOT}/crates/dmlab/out/dmlab"
# How many refusals a process looks for in one go.
BATCH = 50
WRITE = re.compile(r"\. Write (on|before) line (\d+): (.*)$")
LEAVE = re.compile(r"\. Leave line (\d+) blank$")
CHOICE = re.compile(r" (?:(On|Before) line (\d+): `([^`]*)`|Line (\d+) blank: ``)\?")
# What stands before and behind a word, and a line, that has too much.
MARKS = tuple(("", it) for it in ("s", "k", "ms", ";", ",")) + tuple(
    (it, "") for it in ("0x", "+", "-", "/dev/")
)
WRAPS = (("  ", ""), ("", " \\"), ("", " # note"), ("# ", ""), ("dmsetup ", ""), ("7 ", ""))
Lines = List[str]
Mistake = Callable[[random.Random, Lines], Optional[Lines]]


class Mend(NamedTuple):
    """A line that is proposed: in the place of the line `number`, or before it."""

    before: bool
    number: int
    line: str


class Refusal(NamedTuple):
    """What a check told of a bundle: its line of standard output, and all of standard error."""

    told: str
    advice: str


class Seen(NamedTuple):
    """What came of one broken bundle: what is wrong, if something is, and what became of each
    proposal."""

    wrong: List[str]
    ends: List[str]
    bundle: str
    refusal: Refusal


def check(program: str, bundle: str) -> Optional[Refusal]:
    """The refusal of a bundle, or None if it is accepted."""
    run = subprocess.run([program, "check"], input=bundle, capture_output=True, text=True)
    return None if run.returncode == 0 else Refusal(run.stdout.strip(), run.stderr)


def mends(advice: str) -> Iterator[Mend]:
    """The lines that an advice proposes."""
    told = advice.rstrip("\n").rpartition("\n")[2]
    if found := WRITE.search(told):
        yield Mend(found[1] == "before", int(found[2]), found[3])
    elif found := LEAVE.search(told):
        yield Mend(False, int(found[1]), "")
    elif ". Which is meant?" in told:
        for spot, number, line, blank in CHOICE.findall(told):
            yield Mend(spot == "Before", int(number or blank), line)


def mended(lines: Lines, mend: Mend) -> Lines:
    """The lines with a proposal in its place."""
    at = mend.number - 1
    return lines[:at] + [mend.line] + lines[at if mend.before else at + 1 :]


def moved(told: str) -> str:
    """The refusal one line further down."""
    words = told.split(" ")
    words[-2] = str(int(words[-2]) + 1)
    return " ".join(words)


def letters_off(one: str, other: str) -> int:
    """How many letters are to be left out, put in, exchanged for others or with their neighbours:
    the distance of optimal string alignment."""
    rows = [list(range(len(other) + 1))]
    for i, a in enumerate(one, 1):
        row = [i]
        for j, b in enumerate(other, 1):
            best = min(row[j - 1] + 1, rows[i - 1][j] + 1, rows[i - 1][j - 1] + (a != b))
            if i > 1 and j > 1 and a == other[j - 2] and one[i - 2] == b:
                best = min(best, rows[i - 2][j - 2] + 1)
            row.append(best)
        rows.append(row)
    return rows[-1][-1]


def devices_named(line: str) -> List[str]:
    """The words of a line that name devices, by their last names."""
    words = line.split()
    paths = [it for it in words if it.startswith("/dev/") or re.fullmatch(r"\d+:\d+", it)]
    verbs = "create load reload clear suspend resume remove message status table"
    if words and words[0] in verbs.split() and len(words) > 1:
        paths += [it for it in words[1:2] if it != "--notable"]
    return [it.rpartition("/")[2] for it in paths]


def standing(lines: Lines) -> List[str]:
    """The names of all devices and disks that a bundle makes."""
    names, count = [], 0
    for words in (line.split() for line in lines):
        if words[:1] == ["ram"] and len(words) > 1:
            names += [f"ram{words[1]}", f"1:{words[1]}"]
        if words[:1] == ["create"]:
            names += [*words[1:3], f"dm-{count}", f"253:{count}"]
            count += 1
    return names


def is_put_in(old: List[str], line: str) -> bool:
    """Whether a line is an older one with one word more, first, second or fourth, and zeroes
    behind.
    """
    words = line.split()
    for rest in (words[1:], words[:1] + words[2:], words[:3] + words[4:]):
        if old and rest[: len(old)] == old and set(rest[len(old) :]) <= {"0"}:
            return True
    return False


def strange_devices(lines: Lines, mend: Mend) -> Iterator[str]:
    """The devices that a proposal names and that are not near to a word of the line before."""
    line = lines[mend.number - 1] if mend.number <= len(lines) else ""
    old = line.split()
    if not mend.before and "".join(old) == "".join(mend.line.split()):
        return
    near = [it.rpartition("/")[2] for it in old]
    if mend.before and mend.line.startswith("create "):
        near = [it.rpartition("/")[2] for line in lines for it in line.split()]
    for name in devices_named(mend.line):
        if mend.before:
            if name not in standing(lines) and name not in near:
                yield name
        elif name in standing(lines) and (is_put_in(old, mend.line) or lines.count(line) > 1):
            continue
        elif all(letters_off(name, it) > 2 for it in near):
            yield name


def is_given_back(lines: Lines, right: Lines) -> bool:
    """Whether the lines are those of the bundle before its mistake, but for blank ones."""
    return list(filter(None, lines)) == list(filter(None, right))


def judge(program: str, bundle: Lines, right: Lines) -> Optional[Seen]:
    """What comes of a broken bundle, or None if it is accepted; `right` is without it."""
    refusal = check(program, "".join(f"{line}\n" for line in bundle))
    if refusal is None:
        return None
    seen = Seen([], [], "\n".join(bundle), refusal)
    proposed = list(mends(refusal.advice))
    for mend in proposed:
        again = check(program, "".join(f"{line}\n" for line in mended(bundle, mend)))
        same = [refusal.told] + ([moved(refusal.told)] if mend.before else [])
        if is_given_back(mended(bundle, mend), right):
            seen.ends.append("given back")
        elif again is None:
            seen.ends.append("accepted otherwise")
        elif again.told in same:
            seen.wrong.append(f"the same refusal again after {mend}")
        else:
            at = again.told.rpartition(" ")[0] == refusal.told.rpartition(" ")[0]
            seen.ends.append("another rule at the line" if at else "refused elsewhere")
        seen.wrong.extend(f"{it} isn't near, in {mend}" for it in strange_devices(bundle, mend))
    if not proposed:
        seen.ends.append("told only")
    return seen


# ---- mistakes


def changed_word(
    draw: random.Random, lines: Lines, change: Callable[[str], str]
) -> Optional[Lines]:
    """The lines with one word changed."""
    at = draw.randrange(len(lines))
    words = lines[at].split(" ")
    place = draw.randrange(len(words))
    words[place] = change(words[place])
    return lines[:at] + [" ".join(it for it in words if it)] + lines[at + 1 :]


def misspell(draw: random.Random, word: str) -> str:
    """The word with one or two letters wrong."""
    for _ in range(draw.choice((1, 1, 2))):
        at = draw.randrange(len(word) + 1)
        letter = draw.choice("abcdefghijklmnopqrstuvwxyzG_019")
        word = draw.choice(
            (
                word[:at] + word[at + 1 :],
                word[:at] + letter + word[at:],
                word[:at] + letter + word[at + 1 :],
                word[:at] + word[at : at + 2][::-1] + word[at + 2 :],
            )
        )
    return word


def misspelt_word(draw: random.Random, lines: Lines) -> Optional[Lines]:
    """A word has wrong letters."""
    return changed_word(draw, lines, lambda word: misspell(draw, word))


def lost_word(draw: random.Random, lines: Lines) -> Optional[Lines]:
    """A word is missing."""
    return changed_word(draw, lines, lambda word: "")


def doubled_word(draw: random.Random, lines: Lines) -> Optional[Lines]:
    """A word stands twice."""
    return changed_word(draw, lines, lambda word: f"{word} {word}")


def strange_word(draw: random.Random, lines: Lines) -> Optional[Lines]:
    """A word of the bundle stands in the place of another one."""
    other = draw.choice(" ".join(lines).split())
    return changed_word(draw, lines, lambda word: other)


def decorated_word(draw: random.Random, lines: Lines) -> Optional[Lines]:
    """A word has something before or behind it, or stands in capitals."""
    front, back = draw.choice(MARKS)
    if draw.randrange(5) == 0:
        return changed_word(draw, lines, str.upper)
    return changed_word(draw, lines, lambda word: f"{front}{word}{back}")


def other_number(draw: random.Random, lines: Lines) -> Optional[Lines]:
    """A number is another one."""
    places = [
        (at, place)
        for at, line in enumerate(lines)
        for place, word in enumerate(line.split(" "))
        if word.isdigit()
    ]
    if not places:
        return None
    at, place = draw.choice(places)
    words = lines[at].split(" ")
    number = int(words[place])
    others = (0, number + 1, max(number - 1, 0), number * 2, number * 1000, number // 2)
    words[place] = str(draw.choice(others))
    return lines[:at] + [" ".join(words)] + lines[at + 1 :]


def exchanged_words(draw: random.Random, lines: Lines) -> Optional[Lines]:
    """Two neighbouring words are exchanged."""
    at = draw.randrange(len(lines))
    words = lines[at].split(" ")
    if len(words) < 2:
        return None
    place = draw.randrange(len(words) - 1)
    words[place : place + 2] = words[place : place + 2][::-1]
    return lines[:at] + [" ".join(words)] + lines[at + 1 :]


def other_blank(draw: random.Random, lines: Lines) -> Optional[Lines]:
    """A blank between two words is missing, or stands in a word."""
    at = draw.randrange(len(lines))
    line = lines[at]
    place = draw.randrange(len(line) + 1)
    blanks = [it for it, letter in enumerate(line) if letter == " "]
    if draw.randrange(2) == 0 or not blanks:
        return lines[:at] + [f"{line[:place]} {line[place:]}"] + lines[at + 1 :]
    place = draw.choice(blanks)
    return lines[:at] + [line[:place] + line[place + 1 :]] + lines[at + 1 :]


def lost_line(draw: random.Random, lines: Lines) -> Optional[Lines]:
    """A line is missing."""
    at = draw.randrange(len(lines))
    return lines[:at] + lines[at + 1 :]


def moved_line(draw: random.Random, lines: Lines) -> Optional[Lines]:
    """A line stands elsewhere, or twice."""
    at = draw.randrange(len(lines))
    rest = lines[:at] + lines[at + draw.choice((0, 1)) :]
    to = draw.choice((max(at - 1, 0), at + 1, draw.randrange(len(rest) + 1)))
    return rest[:to] + [lines[at]] + rest[to:]


def wrapped_line(draw: random.Random, lines: Lines) -> Optional[Lines]:
    """A line has something before or behind it, or goes on on the next one."""
    at = draw.randrange(len(lines))
    front, back = draw.choice(WRAPS)
    return lines[:at] + [f"{front}{lines[at]}{back}"] + lines[at + 1 :]


def joined_lines(draw: random.Random, lines: Lines) -> Optional[Lines]:
    """Two lines are one."""
    at = draw.randrange(len(lines) - 1)
    between = draw.choice((" ", "; ", " && "))
    return lines[:at] + [between.join(lines[at : at + 2])] + lines[at + 2 :]


def parts_of(lines: Lines) -> List[Lines]:
    """The parts, each with its heading; what stands before the first one comes first."""
    parts: List[Lines] = [[]]
    for line in lines:
        if line.startswith("=="):
            parts.append([])
        parts[-1].append(line)
    return parts


def other_parts(draw: random.Random, lines: Lines) -> Optional[Lines]:
    """A part is missing, stands twice, or has no heading or no line."""
    parts = parts_of(lines)
    at = draw.randrange(1, len(parts))
    others: Tuple[Lines, ...] = ([], parts[at] * 2, parts[at][1:], parts[at][:1])
    made = parts[:at] + [draw.choice(others)] + parts[at + 1 :]
    return [line for part in made for line in part]


MISTAKES: Tuple[Mistake, ...] = (
    misspelt_word,
    misspelt_word,
    misspelt_word,
    lost_word,
    doubled_word,
    strange_word,
    strange_word,
    decorated_word,
    other_number,
    exchanged_words,
    other_blank,
    lost_line,
    moved_line,
    wrapped_line,
    joined_lines,
    other_parts,
)


# ---- the trial


def accepted(program: str) -> List[Lines]:
    """The bundles of the repository that are accepted, and are short enough."""
    found = []
    files = glob.glob(f"{ROOT}/examples/*.bundle") + glob.glob(f"{ROOT}/tests/rows/*/bundle")
    for file in sorted(files):
        with open(file, "rb") as it:
            text = it.read()
        if text.isascii() and len(text) < 4096 and check(program, text.decode()) is None:
            found.append(text.decode().splitlines())
    return found


class Batch(NamedTuple):
    """Some refusals to look for: the program, the bundles, the seed and the number of the batch."""

    program: str
    bundles: List[Lines]
    seed: int
    number: int


def tried(batch: Batch) -> List[Tuple[str, Seen]]:
    """The refusals of a batch, each with the kind of its mistake."""
    draw = random.Random(f"{batch.seed} {batch.number}")
    found: List[Tuple[str, Seen]] = []
    while len(found) < BATCH:
        mistake = draw.choice(MISTAKES)
        right = draw.choice(batch.bundles)
        lines = mistake(draw, right)
        seen = judge(batch.program, lines, right) if lines else None
        if seen:
            found.append((mistake.__name__, seen))
    return found


def show(kind: str, seen: Seen) -> None:
    """Writes a case."""
    print(f"---- {kind}\n{seen.bundle}\n{seen.refusal.told}\n{seen.refusal.advice}", end="")
    print(seen.wrong, seen.ends)


def main(words: Sequence[str]) -> int:
    """Runs the trial; the status is 1 if a case fails."""
    parser = argparse.ArgumentParser(prog="tests/mistakes.py", description=__doc__)
    parser.add_argument("--seed", type=int, default=1)
    parser.add_argument("--refusals", type=int, default=3000)
    parser.add_argument("--program", default=DMLAB)
    parser.add_argument("--show", action="store_true")
    asked = parser.parse_args(words)
    if not os.access(asked.program, os.X_OK):
        print(f"{asked.program} is not there: ./test or rt ci builds it\n0 passed, 1 failed")
        return 1
    bundles = accepted(asked.program)
    count = -(-asked.refusals // BATCH)
    batches = [Batch(asked.program, bundles, asked.seed, number) for number in range(count)]
    ends: Counter[str] = collections.Counter()
    failed = count = 0
    with multiprocessing.Pool() as pool:
        for kind, seen in (case for cases in pool.imap(tried, batches) for case in cases):
            count += 1
            ends.update(seen.ends)
            failed += bool(seen.wrong)
            if seen.wrong:
                print(f"{kind}: {seen.refusal.told}: {'; '.join(seen.wrong)}")
            if asked.show:
                show(kind, seen)
    told = ", ".join(f"{n} {end}" for end, n in ends.most_common())
    print(f"seed {asked.seed}, {len(bundles)} bundles: {told}")
    print(f"{count - failed} passed, {failed} failed")
    return 1 if failed else 0


if __name__ == "__main__":
    sys.exit(main(sys.argv[1:]))
