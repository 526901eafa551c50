"""kernel_fio: runs bundles on the Linux of tools/against_kernel whose log fio itself replays.

fio is Debian's, fetched into the folder of the kernel with all its libraries. The guest's orders
are those of kernel_orders.py, but for the logs': in place of `replay` stand `run PROGRAM WORDS`,
behind which the script goes on when fio has ended, and `tell FILE`. The transcript has the lines
that fio issued, and no others; of a read it tells no bytes. kernel_issued.py says how that is
known.
"""

from __future__ import annotations

import os
import shutil
from typing import Callable

from dmlab_tools import kernel_answers
from dmlab_tools import kernel_boot
from dmlab_tools import kernel_image
from dmlab_tools import kernel_moments
from dmlab_tools import kernel_orders
from dmlab_tools.kernel_answers import Command, Outcome
from dmlab_tools.kernel_issued import TOLD, by_line, issued, sayings
from dmlab_tools.kernel_orders import Part, named, numbered, read_parts
from dmlab_tools.kernel_scene import Scene

WORDS = ("--ioengine=psync", "--direct=1")
RUN = "/fio/loader --library-path /fio /fio/fio --name=log --write_lat_log=/tmp/fio"


def prepare(say: Callable[[str], None]) -> None:
    """Fetches what isn't there yet."""
    kernel_image.prepare(say)
    with kernel_image.locked():
        made = kernel_image.at("fio", "made")
        if not os.path.exists(made):
            say("fetching fio and its libraries, about 65 MB")
            shutil.rmtree(kernel_image.at("fio"), ignore_errors=True)
            kernel_image.update_lists()
            kernel_image.fetch_program("fio", "fio")
            kernel_image.forget_packages()
            kernel_image.write(made, "")


def program_files() -> kernel_image.Files:
    """fio and its libraries, in one folder of the guest."""
    paths = {os.path.basename(it): it for it in kernel_image.libraries("fio", "usr/bin/fio")}
    paths["loader"] = kernel_image.loader("fio")[0]
    paths["fio"] = kernel_image.at("fio", "usr/bin/fio")
    return {f"fio/{name}": (kernel_image.content(path), True) for name, path in paths.items()}


def log_of(text: str) -> Part:
    """The one log of a bundle."""
    logs = named(read_parts(text), "log")
    if len(logs) != 1:
        raise kernel_orders.Unfit("fio replays bundles of one log")
    return logs[0]


def longest_wait(log: Part) -> int:
    """How many milliseconds fio waits: it takes the numbers of waits for such."""
    waits = [line.split() for line in log.lines]
    return max((int(it[2]) for it in waits if it[1:2] == ["wait"] and it[2].isdigit()), default=0)


def script_orders(order: str, more: int, log: str) -> list[str]:
    """The orders in place of one of the script: fio runs where the logs begin, and a command is
    waited for so much longer.
    """
    number, word, *rest = order.split()
    if word == "limit":
        return [f"{number} limit {int(rest[0]) + more}"]
    if word == "replay":
        words = " ".join([*WORDS, *TOLD, f"--read_iolog={log}"])
        return [f"{number} run {RUN} {words}", f"{number} tell /tmp/fio_lat.1.log"]
    return [order]


def orders(text: str, number: int) -> dict[str, str]:
    """The files of a bundle's orders."""
    log, folder = log_of(text), f"orders/{number}"
    files, more = kernel_orders.orders(text, number), longest_wait(log)
    script = files[f"{folder}/script"].splitlines()
    told = [it for order in script for it in script_orders(order, more, f"/{folder}/iolog")]
    del files[f"{folder}/log.1"]
    files[f"{folder}/script"] = "".join(f"{order}\n" for order in told)
    files[f"{folder}/limit"] = f"{int(files[f'{folder}/limit']) + 2 * more}\n"
    files[f"{folder}/iolog"] = "".join(f"{line}\n" for line in log.lines)
    return files


def order_files(texts: list[str]) -> kernel_image.Files:
    """The files of all bundles' orders, and fio."""
    files = {"orders/count": (f"{len(texts)}\n".encode(), False), **program_files()}
    for number, text in enumerate(texts, 1):
        files.update((name, (body.encode(), False)) for name, body in orders(text, number).items())
    return files


def replay_line(text: str) -> int:
    """The line of the script at which fio runs."""
    script = named(read_parts(text), "script")[0]
    return next((number for number, words in numbered(script) if words == ["replay"]), 0)


def transcript(text: str, outcome: Outcome) -> list[str]:
    """The lines of a transcript: the report, what fio says, and the moments."""
    log = log_of(text)
    fio = outcome.commands.pop(replay_line(text), Command(-1, [], [], []))
    found = by_line(log, issued(fio))
    lines = kernel_answers.report(text, outcome, False)
    lines += [f"log {log.name}", *(f"{at} {it.kind} {it.result}" for at, it in found.items())]
    version = next((line for line in fio.out if line.startswith("fio-")), "fio didn't start")
    lines += [f"# replayed by {' '.join([version, *WORDS])}"]
    lines += [f"# fio says: {line}" for line in sayings(fio)]
    moments = {f"{log.name} {at}": it.moment for at, it in found.items() if it.moment is not None}
    return lines + kernel_moments.remarks(Scene(text), moments)


def run_all(texts: list[str], say: Callable[[str], None]) -> tuple[list[str], list[list[str]]]:
    """The versions that Linux tells, and the transcripts of bundles."""
    prepare(say)
    limits = [kernel_orders.bundle_time(read_parts(text)) // 1000 for text in texts]
    limits = [it + 2 * longest_wait(log_of(text)) // 1000 for it, text in zip(limits, texts)]
    answers = kernel_boot.boot(
        order_files(texts), limits, lambda number: say(f"{number} of {len(texts)} ran")
    )
    head, blocks = kernel_answers.split_answers(answers)
    outcomes = [kernel_answers.read_outcome(block) for block in blocks]
    outcomes += [Outcome({}, [], [], ["the guest came to no end"])] * (len(texts) - len(outcomes))
    told = [transcript(text, outcome) for text, outcome in zip(texts, outcomes)]
    return kernel_answers.versions(head), told
