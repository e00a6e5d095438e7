"""Colours where a terminal is looked at, and the note where one is waited for."""
import os
import sys
from collections.abc import Mapping
from typing import IO, Any

STYLES = {"error": "1;31", "note": "1;36", "mark": "32", "good": "32", "bad": "31", "bold": "1"}


class Colours:
    """Gives texts their colours, or leaves them as they are."""

    def __init__(self, shown: bool = False) -> None:
        self.shown = shown

    def paint(self, style: str, text: str) -> str:
        return f"\x1b[{STYLES[style]}m{text}\x1b[0m" if self.shown and text else text


def colours_of(stream: IO[Any], environment: Mapping[str, str] = os.environ) -> Colours:
    """Colours for a terminal, but where NO_COLOR is set to anything, or it can show none."""
    shows = stream.isatty() and not environment.get("NO_COLOR")
    return Colours(shows and environment.get("TERM") != "dumb")


def note_wait(what: str) -> None:
    """Where standard input is a terminal, says that it is read, and how that ends."""
    if sys.stdin.isatty():
        print(
            f"lazbendix: {what} is read from the terminal; Ctrl-D ends it, and a file may be named "
            "instead",
            file=sys.stderr,
        )
