#!/usr/bin/env python3
"""Writes the script of a dense day of must `set` commands on standard output.

    dense_day.py [WINDOWS [RUNS [COMMANDS [DEVICES [OWN [ROUNDS [ABORTED [LATE]]]]]]]]

By default 288 windows of 64 runs of 64 commands each, on 256 devices. With OWN each routine keeps
to so many devices of its own, which are drawn first; without it, or with 0, each command is on any
device. With ROUNDS each device fails in two neighbouring calls, drawn, of each 256 up to its
4,096th, and is probed in so many rounds in each window. With ABORTED the last command of each
routine whose number divides by it is a `check` for a value that is never set, so that its runs are
aborted and undone. With LATE each command takes so many ms more than the 100 that are estimated, so
that leases become overdue. The contended day is `dense_day.py 288 64 64 16 8 0 0 50`: each run is
on 8 of 16 devices. The small day, in which the timeline finds gaps, is `dense_day.py 288 64 4 32`.
The day is always the same: what is drawn comes from a generator with a fixed seed.
"""
from __future__ import annotations

import argparse
import json
import sys
from collections.abc import Callable
from typing import Any

MULTIPLIER = 6364136223846793005
INCREMENT = 1442695040888963407
SEED = 1
UNSET = 1000
ESTIMATE = 100


def draws() -> Callable[[int], int]:
    """Draws from a generator of 64 bits: each answers a number below its argument."""
    state = SEED

    def below(k: int) -> int:
        nonlocal state
        state = (state * MULTIPLIER + INCREMENT) % 2**64
        return (state >> 33) % k

    return below


def on_device(below: Callable[[int], int], devices: int, own: int) -> Callable[[], int]:
    """What draws the device of each command of one routine."""
    if not own:
        return lambda: below(devices)
    chosen: list[int] = []
    while len(chosen) < min(own, devices):
        d = below(devices)
        if d not in chosen:
            chosen.append(d)
    return lambda: chosen[below(len(chosen))]


def commands_of(
    below: Callable[[int], int], commands: int, devices: int, own: int, aborted: int, late: int
) -> list[dict[str, Any]]:
    device = on_device(below, devices, own)
    made: list[dict[str, Any]] = [
        {"on": f"d{device()}", "do": "set", "to": below(1000)} for _ in range(commands)
    ]
    if aborted:
        made[-1] = {"on": made[-1]["on"], "do": "check", "to": UNSET}
    if late:
        for command in made:
            command["takes"] = ESTIMATE + late
    return made


def device(below: Callable[[int], int], name: str, rounds: int, aborted: int) -> dict[str, Any]:
    made: dict[str, Any] = {
        "name": name,
        "low": 0,
        "high": UNSET if aborted else UNSET - 1,
        "start": 0,
    }
    if rounds:
        first = [256 * k + 1 + below(254) for k in range(16)]
        made["down"] = [[call, call + 2] for call in first]
    return made


def window(
    below: Callable[[int], int], k: int, runs: int, routines: int, rounds: int
) -> dict[str, Any]:
    made: dict[str, Any] = {
        "at": f"2021-04-26T{5 * k // 60:02}:{5 * k % 60:02}:00",
        "seed": k + 1,
        "runs": [{"routine": f"r{below(routines)}"} for _ in range(runs)],
    }
    if rounds:
        made["probes"] = rounds
    return made


def day(
    windows: int,
    runs: int,
    commands: int,
    devices: int,
    own: int = 0,
    rounds: int = 0,
    aborted: int = 0,
    late: int = 0,
) -> dict[str, Any]:
    below = draws()
    routines = max(runs, 1)
    return {
        "safehome": 1,
        "devices": [device(below, f"d{d}", rounds, aborted) for d in range(devices)],
        "routines": [
            {
                "name": f"r{r}",
                "commands": commands_of(
                    below, commands, devices, own, aborted and r % aborted == 0, late
                ),
            }
            for r in range(routines)
        ],
        "windows": [window(below, k, runs, routines, rounds) for k in range(windows)],
    }


def main() -> None:
    reader = argparse.ArgumentParser(
        description=__doc__, formatter_class=argparse.RawDescriptionHelpFormatter
    )
    reader.add_argument("sizes", nargs="*", type=int, metavar="NUMBER")
    given = reader.parse_args().sizes
    sizes = given[:8] + [288, 64, 64, 256, 0, 0, 0, 0][len(given) :]
    json.dump(day(*sizes), sys.stdout, separators=(",", ":"))
    sys.stdout.write("\n")


if __name__ == "__main__":
    main()
