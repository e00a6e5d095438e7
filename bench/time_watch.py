#!/usr/bin/env python3
"""What it costs to publish and to watch: days by `watch` beside the same by `run`.

    time_watch.py [PROGRAM]

PROGRAM is crates/hub_main/out/hub_main by default, which `rt run` builds. A publishing costs the
same for each window, so it shows most where a window costs least: on the first day, of 288 windows
of one run of one command. Each day is run and watched in turn, ROUNDS times; told are the medians,
of the time, of the processor time, and, where valgrind is installed, of the instructions of the
first day, as callgrind counts them.
"""
from __future__ import annotations

import os
import re
import shutil
import statistics
import subprocess
import sys
import tempfile
from collections.abc import Mapping, Sequence

from bench.time_replay import dense_day, program_asked
from bench.time_run import timed

ROUNDS = 15
COUNTED = 5
DAYS = {
    "288 windows of one run of one command": (dense_day(288, 1, 1, 1), ROUNDS),
    "288 windows of 64 runs of one command": (dense_day(288, 64, 1), ROUNDS),
    "288 windows of 64 runs of 64 commands": (dense_day(), 3),
}


def instructions(called: list[str], script: bytes) -> int:
    with tempfile.TemporaryFile() as given:
        given.write(script)
        given.seek(0)
        counted = ["valgrind", "--tool=callgrind", "--callgrind-out-file=/dev/null", *called]
        done = subprocess.run(
            counted, stdin=given, stdout=subprocess.DEVNULL, stderr=subprocess.PIPE, check=True
        )
    found = re.search(rb"Collected : (\d+)", done.stderr)
    return int(found[1]) if found else 0


def medians(measured: Mapping[str, Sequence[float]]) -> tuple[float, float, str]:
    """The median of what was measured of `run`, of `watch`, and by how much the second is more."""
    run, watch = (statistics.median(measured[word]) for word in ("run", "watch"))
    return run, watch, f"{100 * (watch - run) / run:+.2f} %"


def main() -> None:
    program = program_asked(__doc__)
    print("load", *(f"{load:.1f}" for load in os.getloadavg()), flush=True)
    for name, (script, rounds) in DAYS.items():
        spent: dict[str, list[float]] = {"run": [], "watch": []}
        used: dict[str, list[float]] = {"run": [], "watch": []}
        for _ in range(rounds):
            for word in ("run", "watch"):
                status, seconds, usage = timed([program, word], script)
                if status != 0:
                    sys.exit(f"{name}, {word}: status {status}")
                spent[word].append(1000 * seconds)
                used[word].append(1000 * (usage.ru_utime + usage.ru_stime))
        for what, measured in (("ms", spent), ("ms of a processor", used)):
            run, watch, more = medians(measured)
            print(f"{name}: run {run:.1f}, watch {watch:.1f} {what}, {more}", flush=True)
    if shutil.which("valgrind"):
        name, (script, _) = next(iter(DAYS.items()))
        counted = {
            word: [instructions([program, word], script) for _ in range(COUNTED)]
            for word in ("run", "watch")
        }
        run, watch, more = medians(counted)
        print(f"{name}: run {run:,.0f}, watch {watch:,.0f} instructions, {more}", flush=True)
    else:
        print("valgrind is not installed: no instructions were counted")


if __name__ == "__main__":
    main()
