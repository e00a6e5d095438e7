#!/usr/bin/env python3
"""Measures a log of calls: bytes and syncs of a command, what a call costs with a log and without
one, and how long it takes to make a home again in the middle of a window.

    PYTHONPATH=python python3 -m bench.call_log [--folder FOLDER]

Wants the library (library/build.sh, or LAZBENDIX_LIBRARY), and times the disk that FOLDER is on.
Each home has 64 routines, and each routine sets devices that are drawn. A hub takes runs until none
moves and lets out all at once; then the answers of all devices that are out come, in an order that
is drawn.
"""
from __future__ import annotations

import argparse
import json
import os
import random
import statistics
import tempfile
import time
from collections.abc import Callable
from typing import Any

from lazbendix import CallLog, Go, Hub, LoggedHub, Moved, Over, Worked
from lazbendix.logged_calls import CallKind, LoggedCall

AT = "2026-12-01T09:05:00"
ROUTINES, TRIES = 64, 300


class Stopped(Exception):
    """The window is left as it is."""


def script(devices: int, commands: int) -> bytes:
    draw = random.Random(3)
    named = [{"name": f"d{d}", "low": 0, "high": 9, "start": 0} for d in range(devices)]
    routines = [
        {"name": f"r{r}", "commands": [command(draw, devices) for _ in range(commands)]}
        for r in range(ROUTINES)
    ]
    whole = {"safehome": 1, "devices": named, "routines": routines, "windows": []}
    return json.dumps(whole).encode()


def command(draw: random.Random, devices: int) -> dict[str, Any]:
    return {"on": f"d{draw.randrange(devices)}", "do": "set", "to": draw.randrange(9)}


def open_window(hub: Hub, runs: int) -> None:
    number = hub.begin_window(AT)
    for routine in range(runs):
        if isinstance(hub, LoggedHub):
            hub.add_run_of(hub.trigger(routine))
        else:
            hub.add_run(routine)
    hub.window(number)


def play(hub: Hub, runs: int, quiet: Callable[[], None]) -> None:
    """Plays the window that is open; calls `quiet` whenever no run moves."""
    draw, left, now = random.Random(1), list(range(1, runs + 1)), 0
    out: list[Go] = []
    while hub.left() is not None:
        has_moved, blocked = False, hub.blocked_runs()
        for run in [run for run in left if not blocked >> (run - 1) & 1]:
            now += 1
            turn = hub.take(run, now)
            has_moved |= isinstance(turn, (Moved, Over))
            if isinstance(turn, Over):
                left.remove(run)
            elif isinstance(turn, Go):
                out.append(turn)
        if not has_moved:
            quiet()
            draw.shuffle(out)
            for go in out:
                hub.give(go.device, go.ticket, Worked(), now)
            out.clear()
    hub.close_window()


# What is measured.


def bytes_and_syncs(folder: str, runs: int, commands: int) -> str:
    with CallLog(os.path.join(folder, f"{runs}")) as log:
        with log.hub(script(64, commands)) as hub:
            open_window(hub, runs)
            play(hub, runs, lambda: (hub.let_out(), None)[1])
            hub.let_out()
        count = runs * commands
        return f"{log.syncs / count:.2f} syncs and {log.written / count:.0f} bytes a command"


def syncing(folder: str, group: int) -> str:
    """The middle and the 99th of a hundred syncs."""
    took = []
    with CallLog(os.path.join(folder, f"sync{group}")) as log:
        with log.hub(script(1, 1)):
            for _ in range(TRIES):
                begun = time.perf_counter()
                for call in range(group):
                    log.append(LoggedCall(CallKind.TAKE, value=call), 0)
                log.sync()
                took.append((time.perf_counter() - begun) * 1e6)
    late = sorted(took)[TRIES * 99 // 100]
    return f"{statistics.median(took):,.0f} us, one in a hundred {late:,.0f}"


def played(folder: str, has_log: bool) -> float:
    """The processor time of a window of 64 runs of 64 commands on 64 devices, in s."""
    data = script(64, 64)
    with CallLog(os.path.join(folder, "cost")) as log:
        with log.hub(data) if has_log else Hub(data) as hub:
            open_window(hub, 64)
            begun = time.process_time()
            play(hub, 64, lambda: None)
            return time.process_time() - begun


def rebuilding(folder: str, devices: int) -> str:
    """How long a home takes that was killed near the end of a window of 64 runs of 64 commands."""
    data, path = script(devices, 64), os.path.join(folder, f"rebuilt{devices}")
    with CallLog(path) as log:
        with log.hub(data) as hub:

            def stop() -> None:
                if log.count > 8400:
                    raise Stopped

            open_window(hub, 64)
            try:
                play(hub, 64, stop)
            except Stopped:
                pass
    took = []
    for _ in range(5):
        with CallLog(path) as again:
            begun, wall = time.process_time(), time.perf_counter()
            again.hub(data).close()
            took.append((time.process_time() - begun, time.perf_counter() - wall))
    processor, whole = (1000 * least for least in min(took))
    size = f"{log.count:,} records, {os.path.getsize(path):,} bytes"
    return f"{size}; {processor:.0f} ms of the processor, {whole:.0f} ms in all"


def main() -> None:
    options = argparse.ArgumentParser(description=(__doc__ or "").splitlines()[0])
    options.add_argument("--folder")
    asked = options.parse_args()
    with tempfile.TemporaryDirectory(dir=asked.folder) as folder:
        for name, runs, commands in (("one run of 32 commands", 1, 32), ("64 runs of 1", 64, 1)):
            print(f"{name}: {bytes_and_syncs(folder, runs, commands)}")
        for group in (1, 8, 64):
            print(f"{group} records and a sync: {syncing(folder, group)}")
        without = min(played(folder, False) for _ in range(3))
        with_log = []
        for _ in range(3):
            with tempfile.TemporaryDirectory(dir=folder) as own:
                with_log.append(played(own, True))
        print(f"64 runs of 64 commands: {without * 1000:.0f} ms without a log", end=", ")
        print(f"{min(with_log) * 1000:.0f} ms with one")
        for devices in (64, 256):
            print(f"made again on {devices} devices: {rebuilding(folder, devices)}")


if __name__ == "__main__":
    main()
