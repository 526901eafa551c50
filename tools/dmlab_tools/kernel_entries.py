"""The entries of docs/KERNEL.md as conditions: for a line that differs, the entries that say so.

Each condition looks at the bundle and at both lines. An entry says nothing of a bundle that hasn't
what the entry speaks of, nor of a difference the other way round.
"""

from __future__ import annotations

import re
from typing import Callable

from dmlab_tools import kernel_late
from dmlab_tools.kernel_lines import NOTHING, Pair
from dmlab_tools.kernel_pairs import FLUSHES, has_flush, is_at, is_read_back, reached, reaches
from dmlab_tools.kernel_scene import Line, Scene

Condition = Callable[[Scene, Pair], bool]


def is_failed_flush(pair: Pair) -> bool:
    """Whether dmlab fails a flush, and Linux doesn't."""
    return pair.words[1:2] != [] and pair.words[1] in FLUSHES and pair[2:] == ("EIO", "ok")


def flush_error_line(scene: Scene, pair: Pair) -> bool:
    """A flush of a device with an error line below."""
    return is_failed_flush(pair) and any(it.target == "error" for it in reached(scene, pair))


def is_without_cache(scene: Scene, device: str) -> bool:
    """Whether one of a device's tables has no disk below it, but zero and error lines alone."""
    for table in scene.tables_of(device):
        below = [scene.name_of(word) for line in table for word, _ in line.references()]
        if all(not it.startswith("ram") and is_without_cache(scene, it) for it in below):
            return True
    return False


def flush_without_cache(scene: Scene, pair: Pair) -> bool:
    """A flush that stops above a device without a cache, or isn't counted there."""
    names = {name for name, _ in scene.below(scene.name_of((pair.words + [""])[0]))}
    if pair.key.startswith("script "):
        names = set(scene.devices)
        return fewer_flushes(pair) and any(is_without_cache(scene, it) for it in names)
    is_flush = pair.words[1:2] != [] and pair.words[1] in FLUSHES
    is_new = is_failed_flush(pair) and not flush_error_line(scene, pair)
    is_new = is_new or (is_flush and is_at(pair) < 0)
    return is_new and any(is_without_cache(scene, it) for it in names)


def fewer_flushes(pair: Pair) -> bool:
    """Whether only the flushes that a delay counts differ, and Linux has fewer."""
    form = r"(.* delay [0-9]+ [0-9]+) ([0-9]+)"
    mine, theirs = re.fullmatch(form, pair.mine), re.fullmatch(form, pair.theirs)
    return bool(mine and theirs and mine[1] == theirs[1] and int(mine[2]) > int(theirs[2]))


def flush_once(scene: Scene, pair: Pair) -> bool:
    """Fewer flushes below a table of linear lines, while a flush is under way."""
    tables = [it for it in scene.tables.values() if {line.target for line in it} == {"linear"}]
    return fewer_flushes(pair) and any(len(it) > 1 for it in tables) and has_flush(scene)


def features_of(line: Line, *names: str) -> list[list[str]]:
    """The features of these names of a line."""
    return [words for words in line.features() if words[0].lower() in names]


def flakey_flags(scene: Scene, pair: Pair) -> bool:
    """A fixed corruption whose flags aren't 0."""
    return is_read_back(pair) and reaches(
        scene,
        pair,
        lambda line: any(it[4:] and it[4] != "0" for it in features_of(line, "corrupt_bio_byte")),
    )


def chances(line: Line) -> list[str]:
    """The chances of a line's random corruptions."""
    return [it[1] for it in features_of(line, "random_read_corrupt", "random_write_corrupt")]


def is_only_never(line: Line) -> bool:
    """Whether a line has random corruptions of chance 0 and no other feature."""
    return bool(chances(line)) and set(chances(line)) == {"0"} == {
        (it + ["1"])[1] if "random" in it[0] else "1" for it in line.features()
    }


def printed(text: str) -> str:
    """How Linux prints a flakey line that dmlab prints so."""
    text = re.sub(r" random_(read|write)_corrupt 0(?= |$)", "", text)
    found = re.fullmatch(r"([0-9]+ [0-9]+ flakey \S+ [0-9]+ [0-9]+ [0-9]+)( [0-9]+)?(.*)", text)
    if not found:
        return text
    words = found[3].split() or ["error_reads", "error_writes"]
    return " ".join([found[1], str(len(words)), *words])


def flakey_chance_0(_: Scene, pair: Pair) -> bool:
    """A table's line with a chance of 0 alone; kernel_taken.py knows what follows from it."""
    is_never = re.search(r"flakey \S+ \S+ \S+ \S+ [24]( random_\S+ 0)+$", pair.mine)
    is_table = pair.words[:1] == ["table"]
    return bool(is_table and is_never) and printed(pair.mine) == pair.theirs


def flakey_nothing_printed(_: Scene, pair: Pair) -> bool:
    """A line without features."""
    is_bare = re.search(r"flakey \S+ \S+ \S+ \S+( 0)?$", pair.mine)
    return bool(pair.words[:1] == ["table"] and is_bare) and printed(pair.mine) == pair.theirs


def flakey_chance_0_printed(scene: Scene, pair: Pair) -> bool:
    """A chance of 0 among other features."""
    is_table = pair.words[:1] == ["table"] and " random_" in pair.mine
    return is_table and printed(pair.mine) == pair.theirs and not flakey_chance_0(scene, pair)


def random_bytes(scene: Scene, pair: Pair) -> bool:
    """Bytes that are drawn."""
    return is_read_back(pair) and reaches(
        scene, pair, lambda line: set(chances(line)) - {"0"} != set()
    )


def has_dust(scene: Scene, pair: Pair) -> bool:
    """Whether a dust line may stand behind a difference, and it is one that its list makes."""
    is_reply = pair.words[:1] == ["message"] and NOTHING not in (pair.mine, pair.theirs)
    is_failed = is_read_back(pair) and (pair.mine == "EIO") != (pair.theirs == "EIO")
    is_failed = is_failed and {"enable", "addbadblock"} <= messages(scene)
    return (is_reply or is_failed) and any(it.target == "dust" for it in reached(scene, pair))


def messages(scene: Scene) -> set[str]:
    """The words of all messages."""
    return {
        words[3].lower() for words in scene.script.values() if words[0] == "message" and words[3:]
    }


def is_more(pair: Pair) -> bool:
    """Whether Linux's list has more blocks than dmlab's, as far as the lines show."""
    if pair.words[:1] == ["message"]:
        mine, theirs = (set(re.findall(r"[0-9]+", it)) for it in (pair.mine, pair.theirs))
        if pair.words[3:4] and pair.words[3].lower() == "countbadblocks":
            return int(min(theirs, default="0")) > int(min(mine, default="0"))
        states = ("listed", "done", "unchanged", "cleared")
        is_known = pair.mine in (*states, "not listed", "cleared none")
        word = (pair.words + [""] * 4)[3].lower()
        if word == "addbadblock":
            return pair[2:] == ("done", "unchanged")
        if word == "removebadblock":
            return pair[2:] == ("unchanged", "done")
        return pair.theirs in states if is_known else theirs > mine or not mine
    return pair.theirs == "EIO"


def dust_trim(scene: Scene, pair: Pair) -> bool:
    """A trim of more than a sector, behind which Linux lists more."""
    has_trim = any(int(words[3]) > 512 for words in scene.operations("trim"))
    return has_trim and has_dust(scene, pair) and is_more(pair)


def dust_flush(scene: Scene, pair: Pair) -> bool:
    """A flush, behind which Linux lists less."""
    return has_flush(scene) and has_dust(scene, pair) and not is_more(pair)


def dust_offset(scene: Scene, pair: Pair) -> bool:
    """A dust line whose offset isn't 0."""
    return has_dust(scene, pair) and any(
        line.target == "dust" and line.words[1:2] not in ([], ["0"])
        for line in reached(scene, pair)
    )


def numbers_again(scene: Scene, _: Pair) -> bool:
    """A device that is named by its number, behind a remove."""
    order = [words[0] for words in scene.script.values()]
    is_again = "remove" in order and "create" in order[order.index("remove") :]
    words = [it for lines in scene.tables.values() for line in lines for it in line.words]
    words += [words[0] for log in scene.logs.values() for words in log.values()]
    return is_again and any(re.match(r"(253:|/dev/dm-)[0-9]", it) for it in words)


def dust_long_block(scene: Scene, pair: Pair) -> bool:
    """A table that Linux refuses for its block."""
    is_long = any(
        line.target == "dust" and int(line.words[2]) > 512 * int(line.length)
        for lines in scene.tables.values()
        for line in lines
    )
    return is_long and ("Block size is too large" in pair.theirs or "E" in pair.theirs)


CONDITIONS: dict[str, Condition] = {
    "flush-error-line": flush_error_line,
    "flush-without-cache": flush_without_cache,
    "flush-once": flush_once,
    "trims-in-turn": kernel_late.trims_in_turn,
    "flakey-flags": flakey_flags,
    "flakey-chance-0": flakey_chance_0,
    "random-bytes": random_bytes,
    "dust-trim": dust_trim,
    "dust-offset": dust_offset,
    "dust-flush": dust_flush,
    "numbers-again": numbers_again,
    "behind-a-release": kernel_late.behind_a_release,
    "late-delays": kernel_late.late_delays,
    "flakey-nothing-printed": flakey_nothing_printed,
    "flakey-chance-0-printed": flakey_chance_0_printed,
    "dust-long-block": dust_long_block,
    "fio-waits": kernel_late.fio_waits,
    "fio-trims": kernel_late.fio_trims,
    "fio-stops": kernel_late.fio_stops,
}


def all_entries(scene: Scene, pairs: list[Pair]) -> list[list[str]]:
    """The entries of each pair of all those of a bundle."""
    scene.released = kernel_late.released(scene, pairs)
    return [entries(scene, pair) for pair in pairs]


def entries(scene: Scene, pair: Pair) -> list[str]:
    """The entries that say of a pair of lines that they differ."""
    return [name for name, condition in CONDITIONS.items() if condition(scene, pair)]
