"""Reports line by line, in words that dmlab and Linux share.

A report becomes its lines by key: `script N` with the number of the line of that command, or
`LOG N` for line N of a log. The replies to dust's messages are translated into common words, and
the `up` and `down` that Linux's flakey doesn't print are left out. So are the bytes of reads, where
fio replays, which tells none.
"""

from __future__ import annotations

import re
from typing import NamedTuple

from dmlab_tools.kernel_scene import Scene

# What a pair has on the side that doesn't have the line.
NOTHING = "nothing"
# dmlab's replies to messages in the common words; the others are the same.
REPLIES = {"removed": "done", "added": "done", "enabled": "done", "disabled": "done"}
REPLIES.update({"quiet": "done", "verbose": "done", "already": "unchanged"})


class Pair(NamedTuple):
    """Two lines of one key that differ, dmlab's and Linux's, and the words they are of."""

    key: str
    words: list[str]
    mine: str
    theirs: str


def mine_reply(word: str, text: str) -> str:
    """dmlab's reply to a message in the common words."""
    if word == "removebadblock" and text == "not listed":
        return "unchanged"
    if word == "clearbadblocks":
        return "cleared" if text != "cleared 0" else "cleared none"
    return REPLIES.get(text, text)


def linux_reply(word: str, text: str) -> str:
    """Linux's reply to a message in the common words."""
    if word == "queryblock" and "found in badblocklist" in text:
        return "not listed" if "not found" in text else "listed"
    if word == "countbadblocks" and re.search(r": [0-9]+ badblock", text):
        return text.split()[1]
    if word == "listbadblocks" and not text.startswith("refused"):
        return text if text not in ("", NOTHING, "No blocks in badblocklist") else "none"
    if word == "clearbadblocks" and not text.startswith("refused"):
        return "cleared none" if "no badblocks found" in text else "cleared"
    if text.startswith("refused EINVAL"):
        is_unchanged = text == "refused EINVAL" or "in badblocklist" in text
        return "unchanged" if is_unchanged else text
    return "done" if text in ("", NOTHING, "taken") or text.startswith("kernel: dust: ") else text


def by_key(report: list[str]) -> dict[str, str]:
    """The lines of a report by their keys; those of one command are one text."""
    found: dict[str, str] = {}
    place = ""
    for line in report:
        word, _, rest = line.partition(" ")
        if word == "log":
            place = rest
        elif word == "script":
            number, _, text = rest.partition(" ")
            key = f"script {number}"
            found[key] = f"{found[key]}\n{text}" if key in found else text
        elif word == "refused":
            found["refused"] = rest
        else:
            found[f"{place} {word}"] = rest.partition(" ")[2]
    return found


def common(scene: Scene, found: dict[str, str], is_linux: bool) -> dict[str, str]:
    """The lines in the common words."""
    result = {}
    for key, text in found.items():
        words = scene.words_of(key)
        if words[:1] == ["status"]:
            text = re.sub(r"(?m)( flakey) (up|down)$", r"\1", text)
        if scene.by_fio and words[1:2] == ["read"] and text != "EIO":
            text = "ok"
        if words[:1] != ["message"]:
            result[key] = text
    for key in scene.message_keys():
        if key in found or is_linux:
            word = (scene.words_of(key) + [""] * 4)[3].lower()
            text = " ".join(found.get(key, NOTHING).split("\n"))
            result[key] = linux_reply(word, text) if is_linux else mine_reply(word, text)
    return result


def pairs(scene: Scene, mine: list[str], theirs: list[str]) -> list[Pair]:
    """The lines that differ, in their order; a table's or a status's lines one by one."""
    ours = common(scene, by_key(mine), False)
    linux = common(scene, by_key(theirs), True)
    found = []
    for key in [*ours, *(key for key in linux if key not in ours)]:
        one, other = ours.get(key, NOTHING), linux.get(key, NOTHING)
        parts, others = one.split("\n"), other.split("\n")
        if len(parts) == len(others):
            found += [(key, *it) for it in zip(parts, others) if it[0] != it[1]]
        else:
            found.append((key, one, other))
    return [Pair(key, scene.words_of(key), one, other) for key, one, other in found]
