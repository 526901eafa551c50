"""The entries of docs/KERNEL.md as conditions, of those that tell of moments: trims in turn, what
comes behind a release or a late delay, and fio's replay. kernel_entries.py has the others.
"""

from __future__ import annotations

from dmlab_tools import kernel_moments
from dmlab_tools.kernel_lines import NOTHING, Pair
from dmlab_tools.kernel_pairs import FLUSHES, is_at, is_read_back
from dmlab_tools.kernel_scene import Line, Scene

# How long behind a release a request may come, in microseconds.
BEHIND = 100000
# The delay in milliseconds from which on Linux's timers go by a quarter of a second.
LONG = 2016


def trims_in_turn(scene: Scene, pair: Pair) -> bool:
    """A log's line that is later, while another log trims the same device."""
    if is_at(pair) < 1:
        return False
    own = pair.key.rpartition(" ")[0]
    return any(
        words[1:2] == ["trim"] and scene.name_of(words[0]) == scene.name_of(pair.words[0])
        for log, lines in scene.logs.items()
        for words in lines.values()
        if log != own
    )


def releases(scene: Scene) -> list[int]:
    """The moments behind the replay, in microseconds, at which a suspend or a resume may let go
    what delays hold.
    """
    if not any(it.target == "delay" for lines in scene.tables.values() for it in lines):
        return []
    found, moment, is_replayed = [], 0, False
    for words in scene.script.values():
        is_replayed = is_replayed or words[0] == "replay"
        if is_replayed and words[0] == "sleep":
            moment += int(words[1])
        if is_replayed and words[0] in ("suspend", "resume"):
            found.append(moment)
    return found


def behind(scene: Scene, log: str) -> list[int]:
    """The lines of a log that come right behind one that Linux answered at a release."""
    moments, found, last = releases(scene), [], -1
    for key, start in kernel_moments.planned(scene, log).items():
        if key in scene.theirs:
            is_let_go = any(it <= last < it + BEHIND for it in moments)
            found += [int(key.rpartition(" ")[2])] if is_let_go and start <= last else []
            last = scene.theirs[key]
    return found


def released(scene: Scene, pairs: list[Pair]) -> dict[str, int]:
    """The first line of each log that comes right behind a release and differs."""
    keys, found = {pair.key for pair in pairs}, dict[str, int]()
    for log in scene.logs:
        lines = [number for number in behind(scene, log) if f"{log} {number}" in keys]
        if lines:
            found[log] = min(lines)
    return found


def has_one_behind(scene: Scene) -> bool:
    """Whether a log writes or trims right behind another operation."""
    kinds = [[words[1] for words in log.values() if words[1:]] for log in scene.logs.values()]
    first = ("read", "write", "trim", *FLUSHES)
    return any(
        one in first and other in ("write", "trim")
        for log in kinds
        for one, other in zip(log, log[1:])
    )


def reads_behind(scene: Scene, pair: Pair) -> bool:
    """Whether bytes are read once a write or trim came right behind a release. Without moments
    nobody knows which requests came so: bytes alone show it then.
    """
    if not is_read_back(pair) or "EIO" in pair[2:]:
        return False
    if not scene.theirs:
        return bool(releases(scene)) and has_one_behind(scene)
    keys = [f"{log} {number}" for log in scene.logs for number in behind(scene, log)]
    written = [key for key in keys if scene.words_of(key)[1:2] in (["write"], ["trim"])]
    return any(scene.theirs[key] <= scene.theirs[pair.key] for key in written)


def behind_a_release(scene: Scene, pair: Pair) -> bool:
    """What follows where a request came right behind one that was let go: the later lines of its
    log, what delays hold then, and bytes that are read.
    """
    log, _, number = pair.key.rpartition(" ")
    if log in scene.released and int(number) >= scene.released[log]:
        return True
    is_held = pair.words[:1] == ["status"] and " delay " in pair.mine + pair.theirs
    return bool(scene.released and (is_held or is_at(pair))) or reads_behind(scene, pair)


def flips(scene: Scene, line: Line, load: int) -> list[int]:
    """The moments at which a flakey line that is loaded then goes up or down."""
    up, down = (1000000 * int(it) for it in line.words[2:4])
    last = max([*scene.mine.values(), *scene.theirs.values()], default=0)
    count = max(0, last - load) // (up + down) + 1 if up and down else 0
    return [load + n * (up + down) + it for n in range(min(count, 10000)) for it in (0, up)]


def changes(scene: Scene) -> list[int]:
    """The moments behind the replay at which something changes: a flakey line goes up or down, a
    device is suspended or resumed, or dust gets a message.
    """
    order = list(scene.script.values())
    before = order[: order.index(["replay"])] if ["replay"] in order else []
    moment = -sum(int(words[1]) for words in before if words[0] == "sleep")
    found = []
    for words in order:
        moment += int(words[1]) if words[0] == "sleep" else 0
        if words[0] in ("suspend", "resume", "message"):
            found.append(moment)
        if words[0] in ("create", "load", "reload"):
            for line in scene.tables.get(words[-1], []):
                found += flips(scene, line, moment) if line.target == "flakey" else []
    return found


def long_delays(scene: Scene) -> set[int]:
    """The delays of all lines in milliseconds, if one is so long that Linux ends it late."""
    lines = [line for table in scene.tables.values() for line in table if line.target == "delay"]
    delays = {int(word) for line in lines for word in line.words[2::3]}
    return delays if max(delays, default=0) > LONG else set()


def is_late(scene: Scene, mine: int, theirs: int) -> bool:
    """Whether Linux's moment is the later one, and something changes between the two."""
    return theirs - mine >= kernel_moments.SLACK and any(
        mine <= it <= theirs for it in changes(scene)
    )


def begins_late(scene: Scene, key: str) -> bool:
    """Whether an operation begins later in Linux, and something has changed till then."""
    mine, theirs = (kernel_moments.begun(scene, it) for it in (scene.mine, scene.theirs))
    return is_late(scene, mine.get(key, 0), theirs.get(key, 0))


def goes_late(scene: Scene, key: str) -> bool:
    """Whether an operation begins later in Linux, is let go later by a delay, or is answered
    later, and something has changed till then.
    """
    mine, theirs = scene.mine.get(key, 0), scene.theirs.get(key, 0)
    return begins_late(scene, key) or any(
        is_late(scene, mine - 1000 * delay, theirs - 1000 * delay)
        for delay in long_delays(scene) | {0}
    )


def late_delays(scene: Scene, pair: Pair) -> bool:
    """A log's line behind a long delay, if something has changed till Linux does it, bytes that
    are read behind such a write or trim, and the moments of such a line and of those below it.
    """
    if not long_delays(scene):
        return False
    log, _, number = pair.key.rpartition(" ")
    if is_at(pair):
        lines = [at for at in scene.logs.get(log, {}) if at <= int(number)]
        return any(begins_late(scene, f"{log} {at}") for at in lines)
    before = [
        key for key, moment in scene.theirs.items() if moment <= scene.theirs.get(pair.key, 0)
    ]
    written = [key for key in before if scene.words_of(key)[1:2] in (["write"], ["trim"])]
    is_other = is_read_back(pair) and "EIO" not in pair[2:]
    return any(goes_late(scene, key) for key in [pair.key, *(written if is_other else [])])


def fio_waits(scene: Scene, pair: Pair) -> bool:
    """A log's line that fio issues later, behind a wait."""
    log, _, number = pair.key.rpartition(" ")
    lines = scene.logs.get(log, {}).items()
    has_wait = any(at < int(number) and words[1:2] == ["wait"] for at, words in lines)
    return scene.by_fio and has_wait and is_at(pair) > 0


def fio_trims(scene: Scene, pair: Pair) -> bool:
    """A trim that fio drops."""
    return scene.by_fio and pair.words[1:2] == ["trim"] and pair.theirs == NOTHING


def fio_stops(scene: Scene, pair: Pair) -> bool:
    """A log's line behind the first that failed, where fio stopped."""
    number = pair.key.rpartition(" ")[2]
    is_behind = number.isdigit() and 0 < scene.failed_line < int(number)
    is_other = pair.words[1:2] not in ([], ["trim"])
    return scene.by_fio and is_behind and is_other and pair.theirs == NOTHING
