"""fio_steps: puts fio's logs as dmlab takes them, for tools/bundle and tools/iolog3to2.

Their lines become those of version 2, on devices in place of files:

- The moments of version 3 become `wait` lines. A wait below 100 microseconds is discarded by fio
  and by dmlab, so it is added to the next one; one that version 2 has is left out. No wait stands
  before an `add`, since fio doesn't know its file there. A wait of dmlab is an hour at most, so a
  longer one becomes several lines.
- Where one device stands for several files of a log, it is opened with the first of them and
  closed with the last.
- A part of a log begins with the files that were added and open before it, and with the time
  before it as waits. If lines are left out behind it, it ends with a close of what is open.
"""

from __future__ import annotations

from itertools import chain, islice
from typing import Callable, Iterable, Iterator, NamedTuple

from dmlab_tools.compact_spans import Spans
from dmlab_tools.fio_logs import Fault, Log, Place, entries
from dmlab_tools.time_words import HOUR, LEAST_WAIT

MOST_LINES = 10000


class Step(NamedTuple):
    """A line of a log of version 2, and where it comes from."""

    place: Place
    device: str
    action: str
    numbers: tuple[int, ...]


class Window(NamedTuple):
    """The part of each log that is asked for: from a moment on and before another, in
    microseconds, and so many lines of that.
    """

    begin: int = 0
    end: int | None = None
    most: int | None = None

    def is_over(self, moment: int, count: int) -> bool:
        """Whether a line at this moment is behind the part, of which `count` lines were taken."""
        return count == self.most or self.end is not None and moment >= self.end


class Files:
    """Which files of a log were added, and which are open on which device."""

    def __init__(self) -> None:
        self.added: set[str] = set()
        self.open: dict[str, str] = {}

    def fault(self, file: str, action: str) -> str | None:
        """Why an action on a file can't come next, or None if it can."""
        if action == "open" and file not in self.added:
            return f"open of {file}, which wasn't added"
        if action == "open" and file in self.open:
            return f"open of {file}, which is open"
        if action not in ("add", "open", "wait") and file not in self.open:
            return f"{action} of {file}, which isn't open"
        return None

    def take(self, file: str, action: str, device: str) -> bool:
        """Goes on by an action on a file, and answers whether it is one on the device too."""
        if action == "add":
            self.added.add(file)
        elif action == "open":
            first = device not in self.open.values()
            self.open[file] = device
            return first
        elif action == "close":
            del self.open[file]
            return device not in self.open.values()
        return True


def pauses(time: int) -> Iterator[int]:
    """A time as waits of an hour at most. What is too short for a wait is left out."""
    while time >= LEAST_WAIT:
        yield min(time, HOUR)
        time -= min(time, HOUR)


class Done:
    """What the steps so far did: which devices they added and left open, and the time waited."""

    def __init__(self) -> None:
        self.added: dict[str, None] = {}
        self.states: dict[str, bool] = {}
        self.time = 0
        self.last: Step | None = None

    def note(self, step: Step) -> None:
        """Goes on by a step."""
        self.last = step
        if step.action == "wait":
            self.time += step.numbers[0]
        elif step.action == "add":
            self.added[step.device] = None
        elif step.action in ("open", "close"):
            self.states[step.device] = step.action == "open"

    def held(self) -> list[str]:
        """The devices that are open."""
        return [device for device, is_open in self.states.items() if is_open]

    def opening(self) -> list[Step]:
        """What a log begins with to go on behind the steps: their devices added and open, and
        their waits waited.
        """
        if not (last := self.last):
            return []
        begun = [Step(last.place, device, "add", ()) for device in self.added]
        begun += [Step(last.place, device, "open", ()) for device in self.held()]
        waits = [Step(last.place, last.device, "wait", (it, 0)) for it in pauses(self.time)]
        return begun + waits

    def closing(self) -> list[Step]:
        """The closes of what is open."""
        last = self.last
        return [Step(last.place, device, "close", ()) for device in self.held() if last]


def timed(
    log: Log, device_of: Callable[[Place, str], str], scale: int
) -> Iterator[tuple[int, list[Step]]]:
    """The lines of a log, each as its moment in microseconds and its steps, waits first."""
    files, waited = Files(), 0
    for place, (told, file, action, numbers) in entries(log):
        moment = told * scale if log.version == 3 else waited
        if why := files.fault(file, action):
            log.file.fail(Fault(place, why))
        device = device_of(place, file)
        steps = []
        if files.take(file, action, device):
            time = moment - waited if log.version == 3 and action != "add" else 0
            for pause in pauses(numbers[0] if action == "wait" else time):
                steps.append(Step(place, device, "wait", (pause, 0)))
                waited += pause
            if action != "wait":
                steps.append(Step(place, device, action, numbers))
        yield moment, steps


def part_of(lines: Iterator[tuple[int, list[Step]]], window: Window) -> Iterator[Step]:
    """The steps of the lines in the part of the log that is asked for."""
    done, count = Done(), 0
    for moment, steps in lines:
        if moment >= window.begin:
            if window.is_over(moment, count):
                yield from done.closing() if count else ()
                break
            if count == 0:
                yield from done.opening()
            count += 1
            yield from steps
        for step in steps:
            done.note(step)


def steps_of(
    log: Log,
    device_of: Callable[[Place, str], str],
    scale: int = 1,
    window: Window = Window(),
) -> Iterator[Step]:
    """The lines of a log as version 2 has them. A moment of version 3 is `scale` microseconds."""
    return part_of(timed(log, device_of, scale), window)


def sectors(step: Step) -> tuple[int, int]:
    """The first sector that a step is about, and the one behind its last."""
    first, length = step.numbers
    return first // 512, (first + length) // 512


def last_writes(steps: list[Step]) -> list[Step]:
    """The writes that show at the end: no later writes and trims cover all of their range."""
    covered: dict[str, Spans] = {}
    found = []
    for step in reversed(steps):
        if step.action in ("write", "trim"):
            is_new = covered.setdefault(step.device, Spans()).add(*sectors(step))
            if step.action == "write" and is_new:
                found.append(step)
    return found[::-1]


def verified(steps: list[Step]) -> list[Step]:
    """The steps, and at their end a read of each write that shows there. A closed device is opened
    again.
    """
    done = Done()
    for step in steps:
        done.note(step)
    ended, held = list(steps), done.held()
    for write in last_writes(steps):
        if write.device not in held:
            held.append(write.device)
            ended.append(write._replace(action="open", numbers=()))
        ended.append(write._replace(action="read"))
    return ended


def pieces(steps: Iterable[Step], verify: bool) -> Iterator[list[Step]]:
    """The steps in pieces of as many lines as dmlab takes. Where `verify` is asked, there is room
    for its lines.
    """
    piece: list[Step] = []
    done, room = Done(), MOST_LINES
    for step in steps:
        cost = 2 if verify and step.action in ("write", "close") else 1
        if cost > room:
            yield piece
            piece = done.opening()
            room = MOST_LINES - len(piece)
        done.note(step)
        piece.append(step)
        room -= cost
    yield piece


def cut(steps: Iterator[Step], verify: bool, split: bool) -> Iterator[list[Step]]:
    """The steps as one log of as many lines as dmlab takes or, where `split` is asked, as several;
    else as one of too many lines, of which no more is read. `verify` adds reads to each.
    """
    head = list(islice(steps, MOST_LINES + 1))
    whole = verified(head) if verify else head
    if len(whole) <= MOST_LINES or not split:
        yield whole
        return
    for piece in pieces(chain(head, steps), verify):
        yield verified(piece) if verify else piece


def text_of(steps: Iterable[Step]) -> str:
    """The lines of a log of version 2."""
    lines = [" ".join([step.device, step.action, *map(str, step.numbers)]) for step in steps]
    return "".join(f"{line}\n" for line in ["fio version 2 iolog", *lines])
