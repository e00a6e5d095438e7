#!/usr/bin/env python3
"""Times days by `rooms`, with a hub for each room, beside the same days by `run`, with one hub for
all.

    room_time.py [PROGRAM] [--slow PROGRAM]

PROGRAM is crates/hub_main/out/hub_main by default, which `rt run` builds. The dense day has 288
windows of 64 runs of 64 commands on 256 devices, and its devices and runs are parted evenly among
1, 2, 4 and 8 rooms: each command of a run is on any device of its room.

With `--slow`, of which each call of a device takes 1 ms, a day of 10 windows of 64 runs of 8
commands on 256 devices is timed too, parted among as many rooms, without probes and with one of
each device in each window.

Times are the least of three calls.
"""
from __future__ import annotations

import argparse
import json
import os
import sys
from typing import Any

from bench.dense_day import draws
from bench.scale import row, seconds
from bench.time_replay import PROGRAM, built
from bench.time_run import timed

ROOMS, DEVICES, RUNS, TIMES = [1, 2, 4, 8], 256, 64, 3
ROUTINES = 64


def day(rooms: Any, windows: Any, commands: Any, probes: int = 0) -> Any:
    """A day whose device d and routine r belong to the rooms d and r modulo their number."""
    below, own = draws(), DEVICES // rooms
    devices = [
        {"name": f"r{d % rooms}_{d // rooms}", "low": 0, "high": 999, "start": 0}
        for d in range(DEVICES)
    ]
    routines = [
        {
            "name": f"r{r}",
            "commands": [
                {"on": f"r{r % rooms}_{below(own)}", "do": "set", "to": below(1000)}
                for _ in range(commands)
            ],
        }
        for r in range(ROUTINES)
    ]
    made = [
        {
            "at": f"2021-04-26T{5 * k // 60:02}:{5 * k % 60:02}:00",
            "probes": probes,
            "runs": [
                {"routine": f"r{below(ROUTINES // rooms) * rooms + run % rooms}"}
                for run in range(RUNS)
            ],
        }
        for k in range(windows)
    ]
    return json.dumps(
        {"safehome": 1, "devices": devices, "routines": routines, "windows": made}
    ).encode()


def least(program: Any, word: Any, script: Any) -> Any:
    """The least time by the clock, and the least processor time, in s."""
    clocks, used = [], []
    for _ in range(TIMES):
        status, clock, told = timed([program, word], script)
        if status:
            sys.exit(f"room_time: {word} ended with {status}")
        clocks.append(clock)
        used.append(seconds(told))
    return min(clocks), min(used)


def table(title: Any, program: Any, windows: Any, commands: Any, probes: int = 0) -> None:
    """Prints for each number of rooms the time of a window by one hub and by a hub a room."""
    print(f"\n{title}:\n")
    row(
        "Rooms",
        "A window, ms: `run`",
        "`rooms`",
        "of `run`",
        "Processor time of a window, ms: `run`",
        "`rooms`",
    )
    row(*["---"] * 6)
    for rooms in ROOMS:
        script = day(rooms, windows, commands, probes)
        (one, one_used), (many, many_used) = least(program, "run", script), least(
            program, "rooms", script
        )
        row(
            f"{rooms}",
            *(f"{1000 * time / windows:.2f}" for time in (one, many)),
            f"{many / one:.2f}",
            *(f"{1000 * time / windows:.2f}" for time in (one_used, many_used)),
        )


def main() -> None:
    reader = argparse.ArgumentParser(
        description=__doc__, formatter_class=argparse.RawDescriptionHelpFormatter
    )
    reader.add_argument("program", nargs="?", default=PROGRAM, metavar="PROGRAM")
    reader.add_argument("--slow", metavar="PROGRAM")
    given = reader.parse_args()
    print(f"{os.cpu_count()} processors, load {os.getloadavg()[0]:.1f}")
    table("The dense day", os.path.realpath(built(given.program)), 288, 64)
    if given.slow:
        slow = os.path.realpath(built(given.slow))
        table("Devices of 1 ms", slow, 10, 8)
        table("Devices of 1 ms, each probed once a window", slow, 10, 8, 1)


if __name__ == "__main__":
    main()
