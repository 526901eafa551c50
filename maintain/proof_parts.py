"""proof_parts: the part of maintain/shorten_parts that finds the parts of a proof for which a call
of a tactic can stand.

A part is what stands behind the `=` of a clause, of a record's field or of a `let` with a type,
behind the `in` of a `let`, behind the `.` of a `λ`, behind the `↦` of a branch, or in brackets:
there what has to be shown is known. Parts lie within parts.
"""

from __future__ import annotations

from typing import Iterator, NamedTuple


class Part(NamedTuple):
    """A part of a text: where it begins and ends, and the parts that lie within it."""

    begin: int
    end: int
    inner: list[Part]


OPENING, CLOSING = "([{", ")]}"


def closing(text: str, at: int) -> int:
    """The place of the bracket that closes the one at a place."""
    depth = 0
    for place in range(at, len(text)):
        depth += (text[place] in OPENING) - (text[place] in CLOSING)
        if depth == 0:
            return place
    return len(text)


def outside(text: str, begin: int, end: int) -> Iterator[int]:
    """The places between two that no brackets hold; an opening bracket's own is among them."""
    place = begin
    while place < end:
        yield place
        place = closing(text, place) + 1 if text[place] in OPENING else place + 1


def is_word(text: str, place: int, word: str) -> bool:
    """Whether a word stands at a place, between spaces or brackets."""
    before, behind = text[place - 1 : place], text[place + len(word) : place + len(word) + 1]
    return text.startswith(word, place) and not (
        before.strip(OPENING + " \n") or behind.strip(OPENING + " \n")
    )


def first(text: str, begin: int, end: int, word: str) -> int | None:
    """The first place of a word that no brackets hold; none where there isn't one."""
    return next((place for place in outside(text, begin, end) if is_word(text, place, word)), None)


def split(text: str, begin: int, end: int, sign: str) -> Iterator[tuple[int, int]]:
    """The pieces between signs that no brackets hold, as places."""
    ends = [place for place in outside(text, begin, end) if text[place] == sign]
    return zip([begin, *(place + 1 for place in ends)], [*ends, end])


def ends_let(text: str, begin: int, end: int) -> int | None:
    """Where the `in` of the `let` at a place stands."""
    count = 0
    for place in outside(text, begin, end):
        count += is_word(text, place, "let") - is_word(text, place, "in")
        if count == 0 and is_word(text, place, "in"):
            return place
    return None


def of_let(text: str, begin: int, end: int, known: bool) -> list[Part]:
    """The parts of a `let`: its value's, where it has a type, and those of what stands behind it."""
    equals, ends = first(text, begin, end, "="), ends_let(text, begin, end)
    if equals is None or ends is None:
        return []
    typed = first(text, begin, equals, ":") is not None
    return parts(text, equals + 1, ends, typed) + parts(text, ends + 2, end, known)


def of_lambda(text: str, begin: int, end: int, known: bool) -> list[Part]:
    """The parts of a `λ`: those behind its `.`."""
    dot = next(
        (
            at
            for at in outside(text, begin, end)
            if text[at] == "." and text[at + 1 : at + 2].isspace()
        ),
        None,
    )
    return parts(text, dot + 1, end, known) if dot else []


def behind(text: str, begin: int, end: int, word: str) -> list[Part]:
    """The parts of what stands behind a word."""
    place = first(text, begin, end, word)
    return parts(text, place + len(word), end) if place is not None else []


def of_bracket(text: str, begin: int) -> Iterator[Part]:
    """The parts of what a bracket holds: an argument or a tuple, the fields of a record, the
    branches of a choice.
    """
    sign, word = {"(": (",", None), "{": (";", "="), "[": ("|", "↦")}[text[begin]]
    for one, other in split(text, begin + 1, closing(text, begin), sign):
        yield from behind(text, one, other, word) if word else parts(text, one, other)


def parts(text: str, begin: int, end: int, known: bool = True) -> list[Part]:
    """The parts of an expression, outermost first; it is one itself where what has to be shown by
    it is known.
    """
    begin, end = begin + len(text[begin:end]) - len(text[begin:end].lstrip()), begin + len(
        text[begin:end].rstrip()
    )
    if begin >= end:
        return []
    if is_word(text, begin, "let"):
        inner = of_let(text, begin, end, known)
    elif text[begin] == "λ":
        inner = of_lambda(text, begin, end, known)
    else:
        brackets = [place for place in outside(text, begin, end) if text[place] in OPENING]
        inner = [part for place in brackets for part in of_bracket(text, place)]
    is_bracket = text[begin] == "(" and closing(text, begin) == end - 1
    return inner if is_bracket or not known else [Part(begin, end, inner)]
