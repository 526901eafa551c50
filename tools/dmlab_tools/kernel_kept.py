"""Many scenarios in one file: tests/kernel/random.txt.

Its first lines tell which Linux it was. A line `=== NAME` begins a scenario: its bundle comes
next, and behind a line `=== linux` its transcript.
"""

from __future__ import annotations

from typing import NamedTuple


class Kept(NamedTuple):
    """A scenario with its transcript."""

    name: str
    text: str
    transcript: list[str]


def read_kept(path: str) -> list[Kept]:
    """The scenarios of a file."""
    with open(path, encoding="ascii") as file:
        _, *parts = ("\n" + file.read()).split("\n=== ")
    found = []
    for bundle, told in zip(parts[::2], parts[1::2]):
        name, _, text = bundle.partition("\n")
        found.append(Kept(name, text + "\n", told.splitlines()[1:]))
    return found


def write_kept(path: str, head: list[str], scenarios: list[Kept]) -> None:
    """Writes the scenarios to a file."""
    with open(path, "w", encoding="ascii") as file:
        file.writelines(line + "\n" for line in head)
        for it in scenarios:
            file.write(f"=== {it.name}\n{it.text}=== linux\n")
            file.writelines(line + "\n" for line in it.transcript)
