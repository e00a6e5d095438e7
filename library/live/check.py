#!/usr/bin/env python3
"""Judges the journal of a live hub by the reference's check of records, which knows no hub.

    python3 library/live/check.py FOLDER

Behind a line `# opened` every device is up at its start; a line `# found lamp=on` puts a device there, up, and `# lost lamp`
counts it down. A hub that was killed may have written a window of the script, and not its text. Prints how many windows and
runs agree, or the first place where a record does not.
"""
import os
import re
import sys
from typing import Any, Iterator

HERE = os.path.dirname(os.path.abspath(__file__))
sys.path.insert(0, os.path.join(HERE, "..", ".."))

from reference.check import Differs, WindowChecker, lines_of, value_in
from reference.script import read_script
from reference.serial import Stand

TOLD = re.compile(r"# (?:found ([^=]*)=(.*)|lost (.*))")


def windows_of(text: str) -> Iterator[list[str]]:
    """The lines of each window, with those that stand above it; and then the lines below the last one."""
    held: list[str] = []
    for line in text.splitlines()[2:]:
        held.append(line)
        if line.startswith("home "):
            yield held
            held = []
    yield held


def stands_told(script: Any, lines: list[str], stands: list[Any]) -> list[Any]:
    """How the home stands when it was told what the lines say."""
    if "# opened" in lines or not stands:
        stands = [Stand(device.start, True) for device in script.devices]
    stands, names = list(stands), [device.name for device in script.devices]
    for told in filter(None, map(TOLD.fullmatch, lines)):
        device = names.index(told[1] or told[3])
        found = value_in(script.devices[device], told[2]) if told[1] else None
        stands[device] = stands[device]._replace(up=False) if found is None else Stand(found, True)
    return stands


def check_day(script: Any, text: str, stands: list[Any]) -> tuple[list[Any], int, int]:
    """How the home stands after the day, its windows and their runs. Raises where the record does not agree."""
    *windows, below = windows_of(text)
    if not 0 <= len(script.windows) - len(windows) <= 1:
        raise Differs(len(windows), "windows")
    for number, lines in enumerate(windows):
        stands = stands_told(script, lines, stands)
        checker = WindowChecker(script, number, stands, lines_of("".join(f"{line}\n" for line in lines).encode()))
        stands, _ = checker.check()
    stands = stands_told(script, below, stands)
    return stands, len(windows), sum(len(window.runs) for window in script.windows[: len(windows)])


def main() -> None:
    if len(sys.argv) != 2 or not os.path.isdir(sys.argv[1]):
        sys.exit("check: python3 library/live/check.py FOLDER")
    folder = sys.argv[1]
    days = sorted(int(name[:-5]) for name in os.listdir(folder) if name.endswith(".json"))
    stands: list[Any] = []
    windows = runs = 0
    for day in days:
        with open(os.path.join(folder, f"{day}.json"), "rb") as file:
            script = read_script(file.read())
        with open(os.path.join(folder, f"{day}.record"), encoding="utf-8") as record:
            text = record.read()
        try:
            stands, of_day, more = check_day(script, text, stands)
        except Differs as differs:
            sys.exit(f"day {day}: {differs}")
        windows, runs = windows + of_day, runs + more
    print(f"{windows} windows with {runs} runs agree")


if __name__ == "__main__":
    main()
