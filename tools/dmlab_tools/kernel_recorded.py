"""kernel_recorded: runs bundles of a recording on the Linux of tools/against_kernel, with the
recorded data, and compares the device afterwards with the one that tools/aftermath puts together.

The guest's orders are those of kernel_orders, but a write has the letter d and, in place of its byte,
the place of its data in the recording, which is the file /orders/data. The last order asks for the
SHA-256 of the device. The pace has to be 100 ms or more, since Linux takes some milliseconds for
each command of the script.
"""

from __future__ import annotations

import argparse
import hashlib
from typing import Callable

from dmlab_tools import kernel_boot
from dmlab_tools import kernel_image
from dmlab_tools import kernel_answers
from dmlab_tools import kernel_orders
from dmlab_tools.aftermath_process import Processes, Program
from dmlab_tools.aftermath_runs import makers_of
from dmlab_tools.fio_logs import Fault, Place
from dmlab_tools.recorded_disks import Maker
from dmlab_tools.recorded_image import CHUNK, SECTOR, ZEROES, Image
from dmlab_tools.recording_file import Recording, read_recording
from dmlab_tools.recording_lines import span_of
from dmlab_tools.shrink_words import find_program

# How long a bundle may take, in seconds, how many run in one boot, and the least wait.
EACH, MOST, LEAST = 300, 10, 100000
MOST_BYTES = 64 << 20


def place_of(maker: Maker, number: int) -> int:
    """Where the data of a line of the log begins in the recording."""
    line, operation = maker.lines[number], maker.operations[number]
    entry = maker.recording.entries[line.entry - 1]
    return entry.at + SECTOR * (line.place + operation.first - line.first)


def data_order(maker: Maker, order: str) -> str:
    """An order of the log; that of a write has the place of its data."""
    words = order.split()
    if words[:1] != ["w"]:
        return order
    return " ".join(["d", *words[1:5], str(place_of(maker, int(words[1])))])


def orders_of(maker: Maker, number: int) -> kernel_image.Files:
    """The files of a bundle's orders."""
    files = kernel_orders.orders(maker.scene.text, number)
    folder = f"orders/{number}"
    log = files[f"{folder}/log.1"].splitlines()
    files[f"{folder}/log.1"] = "".join(f"{data_order(maker, it)}\n" for it in log)
    files[f"{folder}/script"] += f"0 digest {maker.scene.device}\n"
    return {name: (body.encode(), False) for name, body in files.items()}


def sha256_of(image: Image) -> str:
    """The SHA-256 of an image."""
    found = hashlib.sha256()
    for at in range(0, image.size, CHUNK):
        part = image.chunks.get(at // CHUNK, ZEROES)
        found.update(part[: image.size - at])
    return found.hexdigest()


def boot(makers: list[Maker], recording: Recording) -> list[list[str]]:
    """What the guest answers for each bundle."""
    count = f"{len(makers)}\n".encode()
    files = {"orders/count": (count, False), "orders/data": (bytes(recording.data), False)}
    for number, maker in enumerate(makers, 1):
        files.update(orders_of(maker, number))
    limits = [EACH * 10] * len(makers)
    answers = kernel_boot.boot(files, limits, lambda number: None)
    blocks = kernel_answers.split_answers(answers)[1]
    return blocks + [["fault the guest came to no end"]] * (len(makers) - len(blocks))


def verdict(wanted: str, block: list[str]) -> str:
    """How the guest's answers compare with the SHA-256 of dmlab's device: `same`, or both."""
    found = [line.split()[2] for line in block if line.startswith("digest ")]
    wrong = [line for line in block if line.startswith("fault ")]
    if found == [wanted] and not wrong:
        return f"same {wanted}"
    return f"dmlab {wanted}, Linux {' '.join(found + wrong)}"


def compare(maker: Maker, program: Program, block: list[str]) -> bool:
    """Tells how a bundle compares: whether the two devices are one to the byte."""
    path = maker.scene.path
    told = verdict(sha256_of(maker.image(program.disks(path, maker.scene.text, 0))), block)
    print(f"{path}: {told}", flush=True)
    return told.startswith("same ")


def check(maker: Maker) -> None:
    """Refuses a bundle whose log goes too fast for the guest."""
    least = min((it.pause for it in maker.scene.operations if it.pause), default=0)
    if least < LEAST:
        raise Fault(
            Place(maker.scene.path, 0),
            f"its log has a wait of {least} us, and the guest needs {LEAST}: --pace 200ms",
        )


def run(words: argparse.Namespace, say: Callable[[str], None]) -> int:
    """Runs the bundles on Linux, and answers the status."""
    recording = read_recording(words.recording)
    if len(recording.data) > MOST_BYTES:
        raise Fault(Place(words.recording, 0), f"the guest takes at most {MOST_BYTES} bytes")
    makers = list(makers_of(words.paths, recording, span_of(recording, None, None)))
    for maker in makers:
        check(maker)
    program = Program(
        find_program(argparse.Namespace(program=None), "against_kernel"), True, Processes()
    )
    kernel_image.prepare(say)
    known = True
    for first in range(0, len(makers), MOST):
        some = makers[first : first + MOST]
        for maker, block in zip(some, boot(some, recording)):
            known = compare(maker, program, block) and known
    return 0 if known else 1
