#!/usr/bin/env python3
"""Measures the program as it is, and writes the tables of figures in docs/PERFORMANCE.md and
docs/SCALE.md.

    python3 -m bench.figures [PROGRAM] [--at-a-time P] [--unproved] [--write]

PROGRAM is crates/hub_main/out/hub_main by default, which `rt run` builds. The days are those of
time_replay.py and scale.py, drawn by dense_day.py. Times are the least of three calls (of a home
the least of a second's); where valgrind is installed, callgrind counts instructions, which no other
work on the machine changes; where `time` is, it tells the memory. Above each table stand the
commit, the date, the machine and its load.

At the peak the homes wake up together: 1000 homes have one window each, of 8 runs of 8 commands on
64 devices, and P of them, as many as there are processors by default, are replayed at a time, each
by a process of its own.

The tables are printed. With `--write` they take the place of what stands between the lines `<!--
figures -->` and `<!-- end of figures -->` of the two pages. `--unproved` says above them that the
program was built without proof.
"""
from __future__ import annotations

import argparse
import concurrent.futures
import contextlib
import datetime
import hashlib
import io
import os
import re
import subprocess
import sys
import tempfile
import time
from collections.abc import Callable

from bench import scale
from bench.scale import instructions, memory, seconds, shown
from bench.time_replay import PROGRAM, built, dense_day, refused, words
from bench.time_run import timed

TOP = os.path.join(os.path.dirname(os.path.abspath(__file__)), "..")
DENSE = 288 * 64 * 64  # commands
TIMES = 3
HOMES = 1000  # at the peak
MANY_HOMES = 100_000
MARKS = "<!-- figures -->", "<!-- end of figures -->"
DAYS: dict[str, list[int]] = {
    "dense": [],
    "failing": [288, 64, 64, 256, 0, 2],
    "aborted": [288, 64, 64, 256, 0, 0, 3],
    "contended": [288, 64, 64, 16, 8, 0, 0, 50],
    "small": [288, 64, 4, 32],
    "empty": [288, 0],
}
CALLS = [  # day, mode, command
    *(("dense", mode, "replay") for mode in ["gsv", "psv", "ev", "jit", "timeline"]),
    *(("failing", mode, "replay") for mode in ["gsv", "ev"]),
    *(("aborted", mode, "replay") for mode in ["gsv", "ev"]),
    *(("contended", mode, "replay") for mode in ["ev", "jit", "timeline"]),
    *(("small", mode, "replay") for mode in ["ev", "jit", "timeline"]),
    ("empty", "gsv", "replay"),
    *(("dense", mode, "run") for mode in ["gsv", "psv", "ev"]),
]


def row(*cells: str) -> None:
    print("|", " | ".join(cells), "|")
    sys.stdout.flush()


def head_row(*cells: str) -> None:
    row(*cells)
    row(*("---" for _ in cells))


def least(called: list[str], script: bytes) -> tuple[float, float]:
    """The least time by the clock, and the least processor time, of three calls, in s."""
    clocks, used = [], []
    for _ in range(TIMES):
        status, clock, told = timed(called, script)
        if status not in (0, 1):
            sys.exit(f"figures: {called[1:]} ended with {status}")
        clocks.append(clock)
        used.append(seconds(told))
    return min(clocks), min(used)


def with_windows(sizes: list[int], count: int) -> bytes:
    return dense_day(count, *(sizes[1:] or [64]))


def performance(program: str) -> None:
    """The table of docs/PERFORMANCE.md."""
    head_row(
        "Call",
        "Day",
        "Clock, s",
        "Processor time, s",
        "Commands a second",
        "Memory, MB",
        "Instructions of four windows",
    )
    days = {name: dense_day(*sizes) for name, sizes in DAYS.items()}
    for day, mode, command in CALLS:
        called = [program, *words(mode, command)]
        clock, used = least(called, days[day])
        counted = (
            instructions(called, with_windows(DAYS[day], 4))
            if command == "replay" and day != "empty"
            else None
        )
        commands = DENSE if day == "dense" else None
        row(
            f"`{' '.join(called[1:])}`",
            day,
            f"{clock:.2f}",
            f"{used:.2f}",
            shown(commands, used),
            shown(memory(called, days[day]), 1024),
            shown(counted),
        )
    record = subprocess.run(
        [program, "replay"], input=days["dense"], stdout=subprocess.PIPE, check=True
    ).stdout
    others = [
        ("replay", "dense, its last run of no routine: refused", refused(days["dense"])),
        ("check", "the dense day's script and record", days["dense"] + b"%%\n" + record),
        ("trial 288", "its own", b""),
    ]
    for word, day, given in others:
        called = [program, *word.split()]
        clock, used = least(called, given)
        told = memory(called, given) if word != "replay" else None
        row(f"`{word}`", day, f"{clock:.2f}", f"{used:.2f}", "", shown(told, 1024), "")


def peak(program: str, at_a_time: int) -> None:
    """What it costs that all homes wake up together."""
    script = dense_day(1, 8, 8, 64, 4, 1)
    with tempfile.NamedTemporaryFile() as given, concurrent.futures.ThreadPoolExecutor(
        at_a_time
    ) as pool:
        given.write(script)
        given.flush()

        def home(_: int) -> float:
            with open(given.name, "rb") as own:
                begun = time.monotonic()
                subprocess.run(
                    [program, "replay"], stdin=own, stdout=subprocess.DEVNULL, check=True
                )
                return time.monotonic() - begun

        begun = time.monotonic()
        times = sorted(pool.map(home, range(HOMES)))
        spent = time.monotonic() - begun
    print(
        f"\nAt the peak: {HOMES} homes with one window each, {at_a_time} at a time, each a process "
        f"of its own: the last record is"
        f" there after {spent:.1f} s, so {HOMES / spent:.0f} homes a second; a home takes "
        f"{1000 * times[HOMES // 2]:.1f} ms in the"
        f" median, and one in a hundred {1000 * times[HOMES * 99 // 100]:.1f} ms or more, with the "
        f"start of its process."
    )


def homes(program: str) -> None:
    """The table of docs/SCALE.md, and what a hundred thousand of two sizes take."""
    carried = scale.table(program)
    small, great = MANY_HOMES / carried[8, 64], MANY_HOMES / carried[64, 256]
    print(
        f"\nA hundred thousand homes whose days are spread evenly take {small:.2f} of a core with "
        f"8 runs in each five minutes on 64"
        f" devices, and {great:.2f} with 64 runs on 256 devices."
    )


def told_by(*called: str) -> str:
    return subprocess.run(called, cwd=TOP, stdout=subprocess.PIPE).stdout.decode().strip()


def processor() -> str:
    with open("/proc/cpuinfo", encoding="utf-8") as file:
        found = re.search(r"model name\s*: (.*)", file.read())
    return re.sub(r"\s+", " ", found[1]) if found else "unknown"


def heading(program: str, unproved: bool) -> str:
    with open(program, "rb") as file:
        told = hashlib.sha256(file.read()).hexdigest()[:12]
    changed = ", with changes" if told_by("git", "status", "--porcelain", "crates") else ""
    return (
        f"Commit {told_by('git', 'rev-parse', '--short', 'HEAD')}{changed}, "
        f"{datetime.date.today()}; program {told}"
        f"{', built without proof' if unproved else ''}; {processor()}, {os.cpu_count()} "
        f"processors, load"
        f" {os.getloadavg()[0]:.0f} as it began."
    )


def made(title: str, *work: Callable[[], None]) -> str:
    """What the work prints, under the heading."""
    text = io.StringIO()
    with contextlib.redirect_stdout(text):
        print(f"{title}\n")
        for it in work:
            it()
    print(text.getvalue(), flush=True)
    return text.getvalue()


def write(page: str, text: str, marks: tuple[str, str] = MARKS) -> None:
    path = os.path.join(TOP, "docs", page)
    with open(path, encoding="utf-8") as file:
        parts = re.split("|".join(map(re.escape, marks)), file.read())
    if len(parts) != 3:
        sys.exit(f"figures: docs/{page} has no place for a table")
    with open(path, "w", encoding="utf-8") as file:
        file.write(f"{parts[0]}{marks[0]}\n{text}{marks[1]}{parts[2]}")


def main() -> None:
    reader = argparse.ArgumentParser(
        description=__doc__, formatter_class=argparse.RawDescriptionHelpFormatter
    )
    reader.add_argument("program", nargs="?", default=PROGRAM, metavar="PROGRAM")
    reader.add_argument("--at-a-time", type=int, default=os.cpu_count(), metavar="P")
    reader.add_argument("--unproved", action="store_true")
    reader.add_argument("--write", action="store_true")
    given = reader.parse_args()
    program = os.path.realpath(built(given.program))
    pages = {
        "PERFORMANCE.md": made(heading(program, given.unproved), lambda: performance(program)),
        "SCALE.md": made(
            heading(program, given.unproved),
            lambda: homes(program),
            lambda: peak(program, given.at_a_time),
        ),
    }
    if given.write:
        for page, text in pages.items():
            write(page, text)


if __name__ == "__main__":
    main()
