#!/usr/bin/env python3
"""Measures what it costs to keep a day: the same day by `keep`, by `replay`, and by `keep` where
all of it is kept.

    keep_cost.py [PROGRAM]

PROGRAM is crates/hub_main/out/hub_main by default, which `rt run` builds. A day has 288 windows of
one run of one command on 16, 64 or 256 devices. callgrind counts the instructions, in which the
system's part of two syncs a window is not; the times by the clock are the least of five calls, over
a file in an empty folder where the system makes such folders.
"""
from __future__ import annotations

import os
import sys
import tempfile
from collections.abc import Callable

from bench.scale import instructions, row, shown
from bench.time_replay import dense_day, program_asked
from bench.time_run import timed

WINDOWS, DEVICES, TIMES = 288, [16, 64, 256], 5
NAME = "home.journal"


def fresh(measure: Callable[[list[str], bytes], float], called: list[str], script: bytes) -> float:
    """What is measured where no file is there."""
    if os.path.exists(NAME):
        os.remove(NAME)
    return measure(called, script)


def counted(called: list[str], script: bytes) -> int:
    """The instructions of a call."""
    count = instructions(called, script)
    if count is None:
        sys.exit("keep_cost: valgrind is not there")
    return count


def clock(called: list[str], script: bytes) -> float:
    status, spent, _ = timed(called, script)
    if status:
        sys.exit(f"keep_cost: {called[1]} ended with {status}")
    return spent


def main() -> None:
    program = os.path.realpath(program_asked(__doc__))
    print("load", *(f"{load:.1f}" for load in os.getloadavg()), flush=True)
    keep, replay = [program, "keep"], [program, "replay"]
    row(
        "Devices",
        "Instructions of a replay",
        "kept",
        "more a window",
        "of it a device",
        "kept before: opened and resumed",
        "A window by the clock, ms: replayed",
        "kept",
    )
    row(*["---"] * 8)
    before: tuple[int, float] | None = None
    with tempfile.TemporaryDirectory() as folder:
        os.chdir(folder)
        for devices in DEVICES:
            script = dense_day(WINDOWS, 1, 1, devices)
            replayed, kept, again = (
                counted(replay, script),
                fresh(counted, keep, script),
                counted(keep, script),
            )
            more = (kept - replayed) / WINDOWS
            own = None if before is None else (more - before[1]) / (devices - before[0])
            before = devices, more
            times = [
                1000 * min(fresh(clock, called, script) for _ in range(TIMES)) / WINDOWS
                for called in (replay, keep)
            ]
            row(
                f"{devices}",
                shown(replayed),
                shown(kept),
                shown(more),
                shown(own, digits=1),
                shown(again),
                *(f"{time:.3f}" for time in times),
            )


if __name__ == "__main__":
    main()
