"""Random scenarios for tools/against_kernel --random: bundles over all targets and features, in
stacks, with suspends, swaps and messages while requests are under way.

A candidate is kept if dmlab accepts it, and if its report doesn't depend on chance: it is the same
by 8 seeds, and also if the logs or the script are 300 ms later than written. So a Linux whose
commands take some milliseconds has no excuse for another report.
"""

from __future__ import annotations

import random
from typing import Iterator

from dmlab_tools import kernel_compare

# By how many seeds a report has to be the same, and how much later it has to be the same, in
# microseconds.
SEEDS, SHIFT = 8, 300000
FEATURES = (
    "error_reads",
    "drop_writes",
    "error_writes",
    "corrupt_bio_byte {byte} r {value} 0",
    "corrupt_bio_byte {byte} w {value} 0",
    "random_read_corrupt 0",
    "random_write_corrupt 0",
)
KINDS = ("read", "read", "read", "write", "write", "write", "trim", "sync", "datasync")
MESSAGES = ("addbadblock", "removebadblock", "queryblock", "countbadblocks", "listbadblocks")
STATES = ("enable", "enable", "enable", "disable", "quiet", "clearbadblocks")
TARGETS = ("linear", "linear", "zero", "error", *["flakey", "dust", "delay"] * 3)


class Maker:
    """Makes one candidate: its devices with their sizes, its tables and its text."""

    def __init__(self, seed: str) -> None:
        self.draw = random.Random(seed)
        self.sizes: dict[str, int] = {}
        self.tables: list[str] = []
        self.types: dict[str, list[tuple[int, str]]] = {}

    def feature_words(self) -> str:
        """The features of a flakey line."""
        chosen = self.draw.sample(FEATURES, self.draw.choice((0, 1, 1, 1, 2)))
        filled = [
            it.format(
                byte=self.draw.choice((1, 2, 512, 513, 1024)), value=self.draw.randrange(256)
            )
            for it in chosen
        ]
        words = " ".join(filled).split()
        return " ".join([str(len(words)), *words]) if words else ""

    def reference(self, length: int) -> str:
        """A device below and an offset at which a line of this length has room."""
        device = self.draw.choice([name for name in self.sizes if self.sizes[name] >= length])
        room = self.sizes[device] - length
        return f"{device} {self.draw.choice((0, 0, room, self.draw.randint(0, room)))}"

    def arguments(self, target: str, length: int) -> str:
        """The words behind a target's name."""
        if target in ("zero", "error"):
            return ""
        if target == "delay":
            groups = range(self.draw.randint(1, 3))
            delays = (0, 200, 700, 1300, 2500)
            return " ".join(f"{self.reference(length)} {self.draw.choice(delays)}" for _ in groups)
        more = {
            "linear": "",
            "dust": str(self.draw.choice([it for it in (512, 1024, 2048) if it <= 512 * length])),
        }
        if target == "flakey":
            interval = self.draw.choice(("0 1", "0 1", "1 1", "2 1", "1 2", "1 0"))
            more["flakey"] = f"{interval} {self.feature_words()}"
        return f"{self.reference(length)} {more[target]}"

    def table(self, name: str, size: int) -> None:
        """A table of one to three lines."""
        cuts = self.draw.sample(range(2, size, 2), self.draw.choice((0, 0, 1, 2)))
        edges = [0, *sorted(cuts), size]
        lines, self.types[name] = [], []
        for start, end in zip(edges, edges[1:]):
            target = self.draw.choice(TARGETS)
            words = f"{start} {end - start} {target} {self.arguments(target, end - start)}"
            lines.append(" ".join(words.split()))
            self.types[name].append((start, target))
        self.tables += [f"== table {name}", *lines]

    def message(self, device: str, table: str) -> list[str]:
        """A message to a dust line of a device, if its table has one."""
        starts = [start for start, target in self.types[table] if target == "dust"]
        if not starts:
            return []
        word = self.draw.choice((*MESSAGES, *STATES))
        number = f" {self.draw.randrange(4)}" if word.endswith("block") else ""
        return [f"message {device} {self.draw.choice(starts)} {word}{number}"]

    def change(self, device: str, table: str) -> list[str]:
        """What the script does with a device while the logs run."""
        other, pause = f"{table}x", f"sleep {self.draw.choice((600, 1000, 2000))}000"
        ways: list[list[str]] = [
            [f"suspend {device}", pause, f"resume {device}"],
            [f"status {device}", f"table {device}"],
            self.message(device, table),
        ]
        if other in self.types:
            swap = [f"load {device} {other}", f"resume {device}"]
            ways += [
                swap,
                [f"suspend {device}", swap[0], pause, swap[1]],
                [swap[0], f"clear {device}"],
            ]
        return self.draw.choice(ways)

    def log(self, name: str, device: str) -> list[str]:
        """A log of some operations on a device."""
        path = f"/dev/mapper/{device}"
        lines = [f"== log {name}", "fio version 2 iolog", f"{path} add", f"{path} open"]
        lines.append(f"{path} wait 450000 0")
        for _ in range(self.draw.randint(3, 9)):
            if self.draw.random() < 0.5:
                lines.append(f"{path} wait {self.draw.choice((500, 1000, 1000, 2000))}000 0")
            kind = self.draw.choice(KINDS)
            length = self.draw.randint(1, min(8, self.sizes[path]))
            first = self.draw.randint(0, self.sizes[path] - length)
            place = f"{512 * first} {512 * length}" if "sync" not in kind else "0 0"
            lines.append(f"{path} {kind} {place}")
        return lines

    def text(self) -> str:
        """The bundle."""
        script, devices = ["== script"], []
        for disk in range(self.draw.randint(1, 2)):
            self.sizes[f"/dev/ram{disk}"] = self.draw.choice((16, 24, 32))
            script.append(f"ram {disk} {self.sizes[f'/dev/ram{disk}']}")
        for number in range(self.draw.randint(1, 3)):
            device, size = f"d{number}", self.draw.choice((8, 12, 16))
            self.table(f"t{number}", size)
            if self.draw.random() < 0.5:
                self.table(f"t{number}x", size)
            script.append(f"create {device} t{number}")
            self.sizes[f"/dev/mapper/{device}"] = size
            devices.append((device, f"t{number}"))
            for _ in range(4):
                script += self.message(*devices[-1])
        logs = self.logs([device for device, _ in devices])
        script.append("replay")
        for _ in range(self.draw.randint(1, 3)):
            script.append(f"sleep {self.draw.choice((700, 1000, 1400, 1700))}000")
            script += self.change(*self.draw.choice(devices))
        script.append("wait")
        script += [f"status {device}" for device, _ in devices]
        script += [f"table {device}" for device, _ in devices]
        return "\n".join([*self.tables, *script, *logs]) + "\n"

    def logs(self, devices: list[str]) -> list[str]:
        """One log on the highest device, or a second one on another."""
        chosen = [devices[-1]] + ([self.draw.choice(devices)] if self.draw.random() < 0.3 else [])
        return [line for name, it in zip("ab", chosen) for line in self.log(name, it)]


def moved(text: str) -> list[str]:
    """The bundle with its logs and script later behind the loads, with its script later, and with
    its logs later.
    """
    sleep = f"\nsleep {SHIFT}\n"
    return [
        text.replace("\nreplay\n", f"{sleep}replay\n"),
        text.replace("\nreplay\n", f"\nreplay{sleep}"),
        text.replace(" wait 450000 0\n", f" wait {450000 + SHIFT} 0\n"),
    ]


def is_steady(text: str) -> bool:
    """Whether dmlab accepts a bundle, and its report depends neither on the seed nor on the
    shifts.
    """
    wanted = kernel_compare.dmlab_report(text)
    if not wanted or kernel_compare.is_refused(wanted):
        return False
    return all(
        kernel_compare.dmlab_report(text, seed) == wanted for seed in range(1, SEEDS)
    ) and all(is_alike(text, it) for it in moved(text))


def without_numbers(text: str) -> list[str]:
    """The report of a moved bundle, without the numbers of its script's lines."""
    return [
        " ".join(line.split()[2:]) if line.startswith("script ") else line
        for line in kernel_compare.dmlab_report(text)
    ]


def is_alike(text: str, other: str) -> bool:
    """Whether a moved bundle has the same report."""
    return without_numbers(text) == without_numbers(other)


def scenarios(seed: int, count: int) -> Iterator[tuple[str, str]]:
    """So many scenarios, each with its name."""
    found, number = 0, 0
    while found < count:
        text = Maker(f"{seed}/{number}").text()
        if is_steady(text):
            yield f"random_{seed}_{number}", text
            found += 1
        number += 1
