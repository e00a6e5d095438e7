#!/usr/bin/env python3
"""Measures a live home: how long a window is open by `run`, by its runs and devices, and what many
homes at once cost.

    python3 -m bench.live_home PROGRAM [--waits MS] [--homes N ..]

PROGRAM is one whose devices take MS ms for a call, 20 by default. (In the figures of docs/SCALE.md
it is the program itself, built without proof, with a wait put into the calls of its simulated
devices. With the program as it is the devices answer at once.) A day has 10 windows of 1, 8 or 64
runs on 64 or 256 devices; a run has 8 commands on 4 devices of its own, which takes 8 calls one
after the other where it is alone. It is run without probes, and with one of each device in each
window, which the detector makes one after the other. Then N homes of 8 runs and 64 devices are live
at once without probes, each a process of its own, 1, 10 and 50 by default.
"""
from __future__ import annotations

import argparse
import os
import subprocess
import sys
import tempfile
import time

from bench.scale import memory, row, seconds, shown
from bench.time_replay import built, dense_day
from bench.time_run import timed

WINDOWS, COMMANDS, OWN = 10, 8, 4
SIZES = [(1, 64), (8, 64), (64, 64), (64, 256)]


def many(called: list[str], script: bytes, homes: int) -> tuple[float, float]:
    """The time in s in which so many homes have their days run at once, and the processor time of
    one.
    """
    with tempfile.NamedTemporaryFile() as given:
        given.write(script)
        given.flush()
        begun, children, spent = time.monotonic(), [], 0.0
        for _ in range(homes):
            with open(given.name, "rb") as own:
                children.append(subprocess.Popen(called, stdin=own, stdout=subprocess.DEVNULL))
        for child in children:
            _, status, used = os.wait4(child.pid, 0)
            child.returncode = os.waitstatus_to_exitcode(status)
            if child.returncode:
                sys.exit(f"live_home: a day ended with {child.returncode}")
            spent += seconds(used)
        return time.monotonic() - begun, spent / homes


def main() -> None:
    reader = argparse.ArgumentParser(
        description=__doc__, formatter_class=argparse.RawDescriptionHelpFormatter
    )
    reader.add_argument("program", metavar="PROGRAM")
    reader.add_argument("--waits", type=float, default=20, metavar="MS")
    reader.add_argument("--homes", type=int, nargs="*", default=[1, 10, 50], metavar="N")
    given = reader.parse_args()
    called = [os.path.realpath(built(given.program)), "run"]
    print("load", *(f"{load:.1f}" for load in os.getloadavg()), flush=True)
    row(
        "Runs a window",
        "Devices",
        "A window, ms",
        "with probes",
        "A run alone, ms",
        "The probes alone, ms",
        "Processor time of a window, ms",
        "with probes",
        "Memory, MB",
    )
    row(*["---"] * 9)
    for runs, devices in SIZES:
        told = []
        for rounds in [0, 1]:
            status, clock, used = timed(
                called, dense_day(WINDOWS, runs, COMMANDS, devices, OWN, rounds)
            )
            if status:
                sys.exit(f"live_home: the day ended with {status}")
            told.append((1000 * clock / WINDOWS, 1000 * seconds(used) / WINDOWS))
        row(
            f"{runs}",
            f"{devices}",
            f"{told[0][0]:.0f}",
            f"{told[1][0]:.0f}",
            f"{COMMANDS * given.waits:.0f}",
            f"{devices * given.waits:.0f}",
            f"{told[0][1]:.1f}",
            f"{told[1][1]:.1f}",
            shown(memory(called, dense_day(WINDOWS, runs, COMMANDS, devices, OWN)), 1024),
        )
    script = dense_day(WINDOWS, 8, COMMANDS, 64, OWN)
    for homes in given.homes:
        clock, spent = many(called, script, homes)
        print(
            f"{homes} homes of 8 runs and 64 devices at once: {1000 * clock / WINDOWS:.0f} ms a "
            f"window,"
            f" {1000 * spent / WINDOWS:.1f} ms of processor time each",
            flush=True,
        )


if __name__ == "__main__":
    main()
