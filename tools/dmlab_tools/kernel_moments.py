"""When a log's operations are answered, in dmlab and in Linux.

A moment is counted in microseconds from the replay. Linux's may be later by SLACK, and behind a
long delay by what its timers are rounded up: those of HZ=250 go by steps of 4 ms, and of eight
times as much from 0.25 s, 2 s, 16 s, 131 s and 1049 s on. A transcript has the moments behind its
report, in remarks of their own: `# moments of LOG: LINE SECONDS, ..`.
"""

from __future__ import annotations

from dmlab_tools.kernel_scene import Scene

SLACK = 100000
TICK = 4000
Moments = dict[str, int]


def timer_step(micros: int) -> int:
    """By how much a timer of so many microseconds may be rounded up."""
    step = TICK
    while micros >= 63 * step and step < TICK * 8**5:
        step *= 8
    return step


def of_trace(scene: Scene, trace: str) -> Moments:
    """The moments that dmlab's trace tells."""
    rows = [line.split("\t") for line in trace.splitlines()[1:]]
    replay = next((int(row[1]) for row in rows if row[10:11] == ["replay"]), 0)
    names, found = list(scene.logs), {}
    for row in rows:
        if row[3] != "-" and row[5] != "-" and row[6] == "-":
            found[f"{names[int(row[3]) - 1]} {row[4]}"] = int(row[1]) - replay
    return found


def of_answers(scene: Scene, logs: list[dict[int, tuple[int, str]]]) -> Moments:
    """The moments that the guest tells."""
    return {
        f"{name} {number}": moment
        for name, answers in zip(scene.logs, logs)
        for number, (moment, _) in answers.items()
    }


def remarks(scene: Scene, moments: Moments) -> list[str]:
    """The lines of a transcript that tell the moments."""
    lines = []
    for log, numbers in scene.logs.items():
        told = [
            f"{number} {moments[f'{log} {number}'] / 1e6:.3f}"
            for number in numbers
            if f"{log} {number}" in moments
        ]
        lines += [f"# moments of {log}: {', '.join(told)}"] if told else []
    return lines


def of_remarks(transcript: list[str]) -> Moments:
    """The moments that a transcript tells."""
    found = {}
    for line in transcript:
        if line.startswith("# moments of "):
            log, _, told = line.removeprefix("# moments of ").partition(": ")
            for number, seconds in (it.split() for it in told.split(", ")):
                found[f"{log} {number}"] = round(float(seconds) * 1e6)
    return found


def planned(scene: Scene, log: str) -> dict[str, int]:
    """The moment before which an operation of a log doesn't begin, by its line."""
    moment, found = 0, {}
    for number, words in scene.logs[log].items():
        if words[1:2] == ["wait"] and int(words[2]) >= 100:
            moment += int(words[2])
        found[f"{log} {number}"] = moment
    return found


def begun(scene: Scene, answered: Moments) -> Moments:
    """When each operation begins: behind its waits, and not before the one above it is answered."""
    found = {}
    for log in scene.logs:
        before = 0
        for key, start in planned(scene, log).items():
            found[key] = max(start, before)
            before = answered.get(key, before)
    return found


def unlike(scene: Scene, mine: Moments, theirs: Moments) -> list[str]:
    """The lines that are answered at another moment and took another time, by their keys."""
    found = []
    for log in scene.logs:
        before, theirs_before = 0, 0
        for key, start in planned(scene, log).items():
            if key in mine and key in theirs:
                took = mine[key] - max(start, before)
                longer = theirs[key] - max(start, theirs_before) - took
                allowed = SLACK + timer_step(took)
                later = theirs[key] - mine[key]
                if min(abs(longer), abs(later)) > allowed:
                    found.append(key)
                before, theirs_before = mine[key], theirs[key]
    return found
