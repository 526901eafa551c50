#!/usr/bin/env python3
"""tab_key.py SHELL COMPLETION < LINES: types each line and the key TAB into bash or zsh, where
this completion of dmlab's words was read, and writes the line that the shell made of it, as the
shell itself tells it: it is bound to a key that prints it between brackets.
"""

from __future__ import annotations

import argparse
import os
import pty
import select
import sys
import time

WORDS = {
    "bash": ["bash", "--norc", "--noprofile", "-i"],
    "zsh": ["zsh", "-f", "-i"],
}
SETTING = {
    "bash": b"""source "$TAB_COMPLETION"; bind 'set bell-style none'; dmlab() { :; }
tell() { printf '[%s]' "$READLINE_LINE"; READLINE_LINE=; READLINE_POINT=0; }; bind -x '"\\C-g": tell'; echo rea''dy
""",
    "zsh": b"""unsetopt beep; PS1='> '; dmlab() { :; }; fpath=("${TAB_COMPLETION:h}" $fpath); autoload -Uz compinit; compinit -D -u
tell() { printf '[%s]' "$BUFFER"; BUFFER= }; zle -N tell; bindkey '^G' tell; bindkey '^I' complete-word; echo rea''dy
""",
}


def read_until(shell: int, wanted: bytes) -> bytes:
    """What the shell says, up to the wanted bytes or for ten seconds."""
    said, end = b"", time.monotonic() + 10
    while wanted not in said and select.select([shell], [], [], max(0, end - time.monotonic()))[0]:
        said += os.read(shell, 4096)
    return said


def main(name: str, completion: str) -> None:
    """Types all lines."""
    child, shell = pty.fork()
    if child == 0:
        os.environ.update(TERM="dumb", PS1="> ", TAB_COMPLETION=os.path.abspath(completion))
        os.execvp(name, WORDS[name])
    os.write(shell, SETTING[name])
    read_until(shell, b"ready")
    for line in sys.stdin:
        os.write(shell, line.rstrip("\n").encode() + b"\t\x07")
        said = read_until(shell, b"]")
        print(said[said.rfind(b"[") + 1 :].partition(b"]")[0].decode())
    os.close(shell)
    os.waitpid(child, 0)


if __name__ == "__main__":
    PARSER = argparse.ArgumentParser(description=__doc__)
    PARSER.add_argument("shell", choices=sorted(WORDS))
    PARSER.add_argument("completion", help="the file that has the completion")
    TOLD = PARSER.parse_args()
    main(TOLD.shell, TOLD.completion)
