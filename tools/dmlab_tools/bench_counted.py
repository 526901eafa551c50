"""bench_counted: the instructions of a run, by valgrind, for tests/families.py and
tests/growth.py. On a busy machine they are the same as on a quiet one.
"""

from __future__ import annotations

import re
import shutil
import subprocess
from typing import Sequence

from dmlab_tools.bench_runs import Fault

# The quickest of valgrind's tools that counts instructions.
TOOL = ("valgrind", "--tool=cachegrind", "--cache-sim=no", "--cachegrind-out-file=/dev/null")


def can_count() -> bool:
    """Whether valgrind is there."""
    return shutil.which(TOOL[0]) is not None


def instructions(program: str, words: Sequence[str], bundle: str) -> int:
    """The instructions of one run of a program on a bundle. A history that ends too early, which
    has status 1, is a run, too.
    """
    run = subprocess.run(
        [*TOOL, program, *words],
        input=bundle.encode(),
        stdout=subprocess.DEVNULL,
        stderr=subprocess.PIPE,
    )
    told = run.stderr.decode(errors="replace")
    count = re.search(r"I +refs: +([0-9,]+)", told)
    if run.returncode not in (0, 1) or not count:
        raise Fault(f"{program} {' '.join(words)}: {told[-500:]}")
    return int(count[1].replace(",", ""))
