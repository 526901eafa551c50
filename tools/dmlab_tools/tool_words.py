"""tool_words: reads the words of a tool, whose help is the text at the top of its file."""

from __future__ import annotations

import argparse
import os
import re
from typing import NoReturn

# where the tools stand, beside the folder of this package
FOLDER = os.path.dirname(os.path.dirname(os.path.realpath(__file__)))


def as_installed(text: str) -> str:
    """A help text. Where ./install put the tools it calls them as they are called there."""
    if os.path.basename(FOLDER) == "tools":
        return text
    return re.sub(r"\btools/([a-z])", r"dmlab-\1", text)


class Words(argparse.ArgumentParser):
    """Reads words. Its usage is the text's first part, and its help the whole text."""

    def __init__(self, name: str, text: str | None) -> None:
        """The words of the tool of this name, with the text at the top of its file."""
        self.text = as_installed(text or "")
        super().__init__(prog=name, usage=self.text.partition("\n\n")[0], allow_abbrev=False)

    def format_help(self) -> str:
        """The whole text."""
        return self.text


class FewWords(Words):
    """Reads words that are few: of wrong ones it tells the usage alone."""

    def error(self, message: str) -> NoReturn:
        """Ends the call."""
        self.exit(2, f"usage: {self.usage}\n")
