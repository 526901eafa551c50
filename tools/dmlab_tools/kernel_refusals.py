"""The entries of docs/KERNEL.md that say of a refusal of dmlab's that Linux takes the command."""

from __future__ import annotations

import re

from dmlab_tools.kernel_scene import Line, Scene

# The rules that one entry names as a whole, each for some commands, or for all.
RULES = {
    "Empty": ("empty-table", ()),
    "TooManyLines": ("many-lines", ()),
    "TooLong": ("delay-longest", ()),
    "V3": ("no-live-table", ("suspend", "resume", "status", "table", "message")),
    "V4": ("load-past-the-end", ("load", "reload")),
    "V5": ("shorter-load", ("load", "reload")),
    "V6": ("suspend-above", ("suspend", "resume")),
    "V7": ("suspended-at-the-end", ()),
    "V11": ("cycle", ("load", "reload")),
}


def line_entry(line: Line, rule: str) -> str | None:
    """The entry of a table's line that dmlab refuses."""
    words = [line.start, line.length, *line.words]
    if rule == "Args" and any("#" in word for word in words):
        return "remark-behind-a-line"
    if any(re.match(r"\+[0-9]|[0-9]+[A-Za-z]", word) for word in words[:2]):
        return "numbers-loose"
    if rule == "Args":
        return {"error": "error-words", "flakey": "flakey-uncounted-words"}.get(line.target)
    if rule == "Number" and any(re.fullmatch(r"[0-9]{10,}", word) for word in words):
        return "numbers-wrap"
    if rule == "Feature" and any(word != word.lower() for word in line.words[5:]):
        return "flakey-capitals"
    names = [words[0] for words in line.features()]
    return "flakey-feature-twice" if rule == "Conflict" and len(set(names)) < len(names) else None


def command_entry(scene: Scene, words: list[str], rule: str) -> str | None:
    """The entry of a command that dmlab refuses."""
    if words[:1] == ["message"] and len(words) > 3 and words[3].lower().endswith("block"):
        return {"V9": "dust-past-the-line", "BadLine": "dust-fail-count"}.get(rule)
    lines = scene.tables.get((words + [""] * 3)[2], [])
    named = [word for line in lines for word, _ in line.references()]
    if rule == "V1" and any(word.startswith("//") for word in named):
        return "device-words"
    entry, commands = RULES.get(rule, ("", ()))
    return entry if entry and (not commands or words[:1] and words[0] in commands) else None


def entry(scene: Scene, refusal: str) -> str | None:
    """The entry that says of a refusal that Linux has none."""
    words = refusal.split()
    rule, number = words[-1], int(words[-2]) if words[-2].isdigit() else 0
    if words[1] == "table":
        line = next((it for it in scene.tables.get(words[2], []) if it.number == number), None)
        found = line_entry(line, rule) if line and rule not in RULES else None
        return found or RULES.get(rule, (None, ()))[0]
    return command_entry(scene, scene.script.get(number, []), rule)
