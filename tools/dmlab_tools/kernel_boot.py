"""The boot: QEMU with the image and the orders of some bundles, and what the guest answers.

A bundle that hangs is ended by the guest, once its time is over (kernel_guest.c). A guest that
hangs itself is ended here, by the processor's time that QEMU uses, so that a busy host doesn't
matter: START seconds for the boot, and for each bundle EACH seconds and a part of its own time. A
guest that uses none is ended after IDLE times as long.
"""

from __future__ import annotations

import os
import subprocess
import tempfile
import time
from typing import Callable

from dmlab_tools import kernel_image

START, EACH, PART, IDLE = 60.0, 30.0, 0.1, 40
# What the kernel leaves out, since no answer depends on it and each instruction is counted: page
# tables of its own for each system call, pages that are cleared, tests of ciphers. Programs that
# stand at one address each time are translated by QEMU once. Without the APIC's timer, in whose
# place the HPET's stands, and with the clock's rate told, the kernel doesn't count both out in
# loops, which cost five of the thirteen seconds of a boot.
QUICK = (
    "mitigations=off init_on_alloc=0 cryptomgr.notests audit=0 apparmor=0 tsc=reliable norandmaps"
    " nolapic_timer tsc_early_khz=1000000"
)
TICKS = os.sysconf("SC_CLK_TCK")


def write_archive(path: str, files: kernel_image.Files) -> None:
    """The archive of a boot: the image, and behind it the orders of all bundles."""
    with open(path, "wb") as file:
        file.write(kernel_image.image() + kernel_image.archive(files))


def machine(archive: str, folder: str) -> list[str]:
    """The words of QEMU. Its clock counts the guest's instructions, and goes on at once where the
    guest sleeps: so the moments don't depend on how fast the host is, and a second that nobody
    uses takes no time.
    """
    words = f"console=ttyS0 quiet panic=-1 nokaslr random.trust_cpu=off {QUICK}"
    options = {
        "machine": "pc",
        "cpu": "qemu64",
        "accel": "tcg",
        "icount": "shift=0,sleep=off",
        "smp": "1",
        "m": "512",
        "display": "none",
        "kernel": kernel_image.kernel(),
        "initrd": archive,
        "append": words,
    }
    told = [word for name, value in options.items() for word in (f"-{name}", value)]
    lines = [word for it in ("console", "answers") for word in ("-serial", f"file:{folder}/{it}")]
    return [*kernel_image.qemu(), "-nodefaults", "-no-reboot", *told, *lines]


class Watch:
    """Watches a guest: which bundle it has come to, and how long it may take for it."""

    def __init__(self, path: str, limits: list[int], ended: Callable[[int], None]) -> None:
        self.path, self.limits, self.ended = path, limits, ended
        self.count, self.spent, self.since = 0, 0.0, time.monotonic()

    def ends(self) -> int:
        """How many bundles came to their end."""
        try:
            with open(self.path, "rb") as file:
                return file.read().count(b"\nend ")
        except FileNotFoundError:
            return 0

    def is_late(self, pid: int) -> bool:
        """Whether the guest has used up its time, after a look at what it has answered."""
        spent, moment, count = processor_time(pid), time.monotonic(), self.ends()
        if count > self.count:
            for number in range(self.count + 1, count + 1):
                self.ended(number)
            self.count, self.spent, self.since = count, spent, moment
        own = self.limits[count] * PART if count < len(self.limits) else 0
        limit = EACH + own + (0 if count else START)
        return spent - self.spent > limit or moment - self.since > IDLE * limit


def processor_time(pid: int) -> float:
    """The seconds of the processors' time that a process has used."""
    try:
        with open(f"/proc/{pid}/stat", encoding="ascii", errors="replace") as file:
            words = file.read().rpartition(")")[2].split()
    except FileNotFoundError:
        return 0.0
    return (int(words[11]) + int(words[12])) / TICKS


def watched(words: list[str], folder: str, watch: Watch) -> None:
    """Runs QEMU until it ends or is late."""
    with open(f"{folder}/told", "wb") as told, subprocess.Popen(
        words,
        stdin=subprocess.DEVNULL,
        stdout=told,
        stderr=told,
        env=kernel_image.qemu_environment(),
    ) as process:
        try:
            while process.poll() is None and not watch.is_late(process.pid):
                time.sleep(0.1)
        finally:
            process.kill()


def boot(files: kernel_image.Files, limits: list[int], ended: Callable[[int], None]) -> list[str]:
    """Boots Linux with these orders of bundles that may take so many seconds each, and gives the
    lines that it answers. Each bundle that came to its end is told.
    """
    with tempfile.TemporaryDirectory() as folder:
        write_archive(f"{folder}/archive", files)
        watch = Watch(f"{folder}/answers", limits, ended)
        watched(machine(f"{folder}/archive", folder), folder, watch)
        watch.is_late(0)
        with open(f"{folder}/answers", encoding="ascii", errors="replace") as file:
            lines = file.read().splitlines()
        if not any(line.startswith("linux ") for line in lines):
            raise kernel_image.Missing(
                f"Linux didn't start: {last_lines(f'{folder}/told')}\n"
                + last_lines(f"{folder}/console")
            )
        return lines


def last_lines(path: str) -> str:
    """The last lines of a console."""
    if not os.path.exists(path):
        return ""
    with open(path, encoding="ascii", errors="replace") as file:
        return "\n".join(file.read().splitlines()[-20:])
