#!/usr/bin/env python3
"""Has drawn days of two to eight rooms played by `rooms`, and judges each record.

    python3 -m dev.room_days [--program P] [--days N] [--seed S] [--merges M] [--guards]

By default 100 days of the seed 1, with crates/hub_main/out/hub_main, which `rt run` and `rt ci`
build. Devices fail and are probed, runs follow others, and each day is played in one mode after
another, but for the weak model; with `--guards` many commands have guards. Which threads step first
is not the day's to say, so no record is expected:

- a day in which a run crosses rooms is refused as the reference refuses it, and nothing is written;
- every other one ends with 0, and `check` finds that its record agrees;
- so does the reference with the same record but for its orders, each of them merged anew, M times,
  from the orders of the rooms;
- in each order as it is printed room stands behind room;
- of every third day each room has one run a window and no probe, so its record is the reference's,
  byte for byte.

Prints counts at the end. The first trouble leaves the script and the record in the current folder,
and ends with 1.
"""
from __future__ import annotations

import argparse
import collections
import json
import os
import random
import re
import subprocess
import sys
from typing import Any

from reference import days
from reference.check import Differs, check_record
from reference.compare import MODES, PROGRAM, wanted
from reference.rooms import room_of, rooms_of, rooms_of_run
from reference.script import WindowText, read_script

SERIAL = [mode for mode in MODES if mode[0] != "wv"]
SECONDS = 30
AGREES = (0, b"agrees\n", b"")
COUNTED = {
    "failures": rb"fail\(",
    "restarts": rb"back\(",
    "runs that committed": rb" committed[ \n](?!\d+ aborted)",
    "runs that were aborted": rb" aborted [a-z]",
}


class Wrong(Exception):
    """What is not as it should be."""


def expect(true: bool, what: str) -> None:
    if not true:
        raise Wrong(what)


def thinned(script: dict[str, Any]) -> dict[str, Any]:
    """The day with the first run of each room in each window, and without probes."""
    rooms = {
        routine["name"]: {command["on"].partition("_")[0] for command in routine["commands"]}
        for routine in script["routines"]
    }
    for window in script["windows"]:
        first: dict[str, dict[str, Any]] = {}
        for run in window["runs"]:
            run.pop("follows", None)
            first.setdefault(min(rooms[run["routine"]]), run)
        window.update(runs=list(first.values()), probes=0)
        window.pop("turns", None)
    return script


class Day:
    def __init__(self, program: str, draw: random.Random, number: int, has_guards: bool) -> None:
        self.program, self.draw = program, draw
        self.is_thin = number % 3 == 2
        made = days.with_picks(draw, days.room_day(draw))
        made = days.guarded(draw, made) if has_guards else made
        self.data = json.dumps(thinned(made) if self.is_thin else made).encode()
        self.script = read_script(self.data)
        self.words = [
            "rooms",
            "--model",
            SERIAL[number % len(SERIAL)][0],
            "--scheduler",
            SERIAL[number % len(SERIAL)][1],
        ]
        self.record = b""

    def call(self, words: list[str], data: bytes) -> tuple[int, bytes, bytes]:
        try:
            done = subprocess.run(
                [self.program, *words], input=data, capture_output=True, timeout=SECONDS
            )
        except subprocess.TimeoutExpired:
            raise Wrong(f"no end after {SECONDS} s") from None
        return done.returncode, done.stdout, done.stderr

    def play(self, merges: int) -> bool:
        """Whether the day was played; else it was refused."""
        came, expected = self.call(self.words, self.data), wanted(self.words, self.data)
        self.record = came[1]
        if expected[0] == 11:
            expect(
                came == expected, f"status {came[0]} and {came[2]!r} of a day that crosses rooms"
            )
            return False
        expect((came[0], came[2]) == (0, b""), f"status {came[0]} and {came[2]!r}")
        expect(not self.is_thin or came == expected, "another record than the reference's")
        expect(
            self.call(["check"], self.data + b"\n%%\n" + self.record) == AGREES,
            "the record does not agree",
        )
        for _ in range(merges):
            self.judge(self.merged())
        return True

    def judge(self, record: bytes) -> None:
        try:
            check_record(self.script, record)
        except Differs as differs:
            self.record = record
            raise Wrong(f"with another order of the rooms: {differs}") from None

    def room_of_item(self, window: WindowText, item: str) -> int:
        """The number of the room to which an item of the order belongs."""
        names = rooms_of(self.script)
        if item.isdigit():
            return names.index(min(rooms_of_run(self.script, window.runs[int(item) - 1])))
        name = item.partition("(")[2].rstrip(")")  # of fail(..) or back(..)
        return names.index(
            next(room_of(device) for device in self.script.devices if device.name == name)
        )

    def merged(self) -> bytes:
        """The record with each order merged anew from those of the rooms."""
        lines, windows = self.record.decode().split("\n"), iter(self.script.windows)
        for k, line in enumerate(lines):
            if line.startswith("order ") and line != "order none":
                lines[k] = " ".join(
                    ["order", *self.merged_items(next(windows), line.split(" ")[1:])]
                )
            elif line == "order none":
                next(windows)
        return "\n".join(lines).encode()

    def merged_items(self, window: WindowText, items: list[str]) -> list[str]:
        rooms = [self.room_of_item(window, item) for item in items]
        expect(rooms == sorted(rooms), "an order in which room does not stand behind room")
        own = {
            room: iter([item for item, other in zip(items, rooms) if other == room])
            for room in rooms
        }
        self.draw.shuffle(rooms)
        return [next(own[room]) for room in rooms]


def main() -> None:
    options = argparse.ArgumentParser(
        description=__doc__, formatter_class=argparse.RawDescriptionHelpFormatter
    )
    options.add_argument("--program", default=PROGRAM)
    options.add_argument("--days", type=int, default=100)
    options.add_argument("--seed", type=int, default=1)
    options.add_argument("--merges", type=int, default=10)
    options.add_argument("--guards", action="store_true")
    asked = options.parse_args()
    if not os.path.isfile(asked.program):
        sys.exit("room_days: there is no such program; `rt run` in crates/hub_main builds it")
    counts = collections.Counter[str]()
    for k in range(asked.days):
        day = Day(
            os.path.abspath(asked.program), random.Random(f"{asked.seed} {k}"), k, asked.guards
        )
        try:
            counts["days played" if day.play(asked.merges) else "days refused"] += 1
        except Wrong as wrong:
            for name, content in [("rooms.json", day.data), ("rooms.record", day.record)]:
                with open(name, "wb") as out:
                    out.write(content)
            sys.exit(
                f"room_days: day {k} of the seed {asked.seed}, {' '.join(day.words)}: {wrong}; in "
                f"rooms.json and rooms.record"
            )
        counts["rooms"] += len(rooms_of(day.script)) * bool(day.record)
        counts["windows"] += len(re.findall(rb"^window ", day.record, re.MULTILINE))
        for name, line in COUNTED.items():
            counts[name] += len(re.findall(line, day.record))
    for what, count in counts.items():
        print(f"{what}: {count}")


if __name__ == "__main__":
    main()
