#!/usr/bin/env python3
"""on_terminal.py PROGRAM WORDS..: runs the program with a terminal as its standard error, and
writes to standard error what the terminal was told. Standard input and output are the program's
own.
"""

from __future__ import annotations

import argparse
import os
import pty
import subprocess
import sys


def main(words: list[str]) -> int:
    """Runs it, and takes up to 64 KiB, which a terminal holds or a reader has taken by then."""
    ours, terminal = pty.openpty()
    with subprocess.Popen(words, stderr=terminal) as program:
        os.close(terminal)
        told = b""
        try:
            while more := os.read(ours, 4096):
                told += more
        except OSError:  # Linux says so where the last one has closed a terminal
            pass
    sys.stderr.buffer.write(told)
    return program.returncode


if __name__ == "__main__":
    PARSER = argparse.ArgumentParser(description=__doc__)
    PARSER.add_argument("words", nargs=argparse.REMAINDER, help="the program and its words")
    sys.exit(main(PARSER.parse_args().words))
