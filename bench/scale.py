#!/usr/bin/env python3
"""Measures what a home costs: processor time and memory of its day, by the runs of a window and the
devices.

    scale.py [PROGRAM]

PROGRAM is crates/hub_main/out/hub_main by default, which `rt run` builds. A day has 288 windows of
1, 8 or 64 runs on 16, 64 or 256 devices; a run has 8 commands on 4 devices of its own. Devices fail
now and then, and each is probed once a window. The day is played under the eventual model, first
come first served, by `replay` and by `run`, each at least five times and as often as takes a
second, and the least processor time counts. How many such homes a core carries is a day's seconds
divided by the time of `run`. Where valgrind is installed, callgrind counts the instructions of the
replay, which no other work on the machine changes; where `time` is, it tells the memory (what
Python itself is told of a child counts Python's own too).

Then 1, as many homes as there are processors, and twice as many, are replayed at once, each by a
process of its own: homes share nothing, so the processor time of one should stay what it is, and as
many days should end in a second as processors are free.
"""
from __future__ import annotations

import os
import re
import resource
import shutil
import subprocess
import sys
import tempfile
import time
from typing import Any

from bench.time_replay import dense_day, program_asked
from bench.time_run import timed

WINDOWS, COMMANDS, OWN, ROUNDS = 288, 8, 4, 1
RUNS, DEVICES = [1, 8, 64], [16, 64, 256]
DAY = 86_400  # s
LEAST = 5
COLUMNS = [
    "Runs a window",
    "Devices",
    "Instructions of a replay",
    "a command",
    "Processor time, s: `replay`",
    "`run`",
    "Memory, MB: `replay`",
    "`run`",
    "Homes a core carries",
]


def seconds(used: resource.struct_rusage) -> float:
    return used.ru_utime + used.ru_stime


def measured(called: list[str], script: bytes) -> float:
    """The least processor time in s of a day that is played for a second."""
    times, begun = list[float](), time.monotonic()
    while len(times) < LEAST or time.monotonic() - begun < 1:
        status, _, used = timed(called, script)
        if status != 0:
            sys.exit(f"scale: the program ended with {status}")
        times.append(seconds(used))
    return min(times)


def told_by(tool: list[str], called: list[str], script: bytes, pattern: bytes) -> int | None:
    """The number that a tool tells on standard error of a program that it plays; none where it is
    not installed.
    """
    if shutil.which(tool[0]) is None:
        return None
    done = subprocess.run(
        [*tool, *called],
        input=script,
        stdout=subprocess.DEVNULL,
        stderr=subprocess.PIPE,
        check=True,
    )
    found = re.search(pattern, done.stderr)
    return int(found[1]) if found else None


def instructions(called: list[str], script: bytes) -> int | None:
    return told_by(
        ["valgrind", "--tool=callgrind", "--callgrind-out-file=/dev/null"],
        called,
        script,
        rb"Collected : (\d+)",
    )


def memory(called: list[str], script: bytes) -> int | None:
    """The most memory of a day in KiB."""
    return told_by(["time", "-f", "%M"], called, script, rb"(\d+)\n\Z")


def row(*cells: str) -> None:
    print("|", " | ".join(cells), "|", flush=True)


def shown(number: float | None, per: float = 1, digits: int = 0) -> str:
    return "" if number is None else f"{number / per:,.{digits}f}"


def table(program: str) -> Any:
    """Prints a row for each size; the homes that a core carries, by runs and devices."""
    row(*COLUMNS)
    row(*["---"] * len(COLUMNS))
    carried = {}
    for runs in RUNS:
        for devices in DEVICES:
            script = dense_day(WINDOWS, runs, COMMANDS, devices, OWN, ROUNDS)
            replay, run = [program, "replay"], [program, "run"]
            count, time_of_run = instructions(replay, script), measured(run, script)
            carried[runs, devices] = DAY / max(time_of_run, 1e-3)
            row(
                f"{runs}",
                f"{devices}",
                shown(count),
                shown(count, WINDOWS * runs * COMMANDS),
                shown(measured(replay, script), digits=3),
                shown(time_of_run, digits=3),
                shown(memory(replay, script), 1024),
                shown(memory(run, script), 1024),
                shown(carried[runs, devices]),
            )
    return carried


def together(program: Any, homes: Any, script: Any) -> Any:
    """The time in s in which so many homes replay their days at once, and the processor time of
    one.
    """
    with tempfile.NamedTemporaryFile() as given:
        given.write(script)
        given.flush()
        begun, children, spent = time.monotonic(), [], 0.0
        for _ in range(homes):
            with open(given.name, "rb") as own:
                children.append(
                    subprocess.Popen([program, "replay"], stdin=own, stdout=subprocess.DEVNULL)
                )
        for child in children:
            _, status, used = os.wait4(child.pid, 0)
            child.returncode = os.waitstatus_to_exitcode(status)
            spent += seconds(used)
        return time.monotonic() - begun, spent / homes


def main() -> None:
    program = program_asked(__doc__)
    print("load", *(f"{load:.1f}" for load in os.getloadavg()), flush=True)
    table(program)
    script, cores = dense_day(WINDOWS, 64, COMMANDS, 256, OWN, ROUNDS), os.cpu_count() or 1
    for homes in [1, cores, 2 * cores]:
        spent, own = together(program, homes, script)
        print(
            f"{homes} homes of 64 runs and 256 devices at once: {spent:.2f} s, {homes / spent:.1f} "
            f"days a second,"
            f" {own:.3f} s of processor time each",
            flush=True,
        )


if __name__ == "__main__":
    main()
