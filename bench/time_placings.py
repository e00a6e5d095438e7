#!/usr/bin/env python3
"""Counts what it costs to place a run by the timeline, in windows of 8, 16, 32 and 64 runs, and
what gaps it finds.

    time_placings.py [--counts | PROGRAM]

PROGRAM is crates/hub_main/out/hub_main by default, which `rt run` builds. It wants callgrind. Four
days of four windows are replayed, all drawn by dense_day.py:

- dense: runs of 64 commands on 256 devices;
- contended: runs of 64 commands, each run on 8 of 16 devices;
- small: runs of 4 commands on 32 devices;
- sparse: runs of 2 commands on 64 devices.

In each the runs of a window arrive and are placed first, and then go on by the seed. Of each size
it prints

- how many runs were placed, how many of them in front of others, and for how many the line was
  rearranged, since the set that stands before them is no first part of it;
- rounds: the plans that the least set takes, the mean and the most;
- exchanges of two neighbours that bring the set to the front, the mean and the most of a placing;
- planned end: the mean over the runs, in ms, and what it would be by one place for all devices, on
  the same line; how many runs end earlier than so, and how many later;
- the instructions of a placing, of the whole day, and of the same day served first come first.

With --counts nothing is replayed and no program is asked: what is placed before any run begins
follows from the rules alone (timeline.py), and the last line is left out. With a program each place
of its record is compared with that of the rules.
"""
from __future__ import annotations

import json
import os
import re
import statistics
import subprocess
import sys
import tempfile
from collections.abc import Iterator
from typing import Any

from bench.dense_day import day
from bench.time_replay import calls_in, program_asked
from dev.timeline import Timeline

SIZES = [8, 16, 32, 64]
DAYS = {"dense": (64, 256, 0), "contended": (64, 16, 8), "small": (4, 32, 0), "sparse": (2, 64, 0)}
# the compiler may have put a placing into its caller, and that one into its own
PLACINGS = [
    r"timeline_scheduler::places::place\b",
    r"hub_core::placings::.*\bdecide_place\b",
    r"hub_core::placings::.*\bdecide_arrived\b",
]


def arriving_first(script: dict[str, Any]) -> str:
    """The day whose windows begin with each run's arrival and its placing, which takes no time."""
    for window in script["windows"]:
        window["turns"] = [
            actor for run in range(1, len(window["runs"]) + 1) for actor in (run, run)
        ]
    return json.dumps(script, separators=(",", ":"))


def words(scheduler: str) -> list[str]:
    return ["replay", "--trace", "--scheduler", scheduler]


def counted(program: str, scheduler: str, script: str) -> tuple[int, tuple[int, str, int] | None]:
    """The instructions of the whole day; and of all placings, with the name under which they were
    found and their number.
    """
    with tempfile.TemporaryDirectory() as room:
        out = os.path.join(room, "callgrind")
        subprocess.run(
            [
                "valgrind",
                "--tool=callgrind",
                f"--callgrind-out-file={out}",
                program,
                *words(scheduler),
            ],
            input=script.encode(),
            stdout=subprocess.DEVNULL,
            stderr=subprocess.DEVNULL,
            check=True,
        )
        lines = (
            subprocess.run(
                ["callgrind_annotate", "--inclusive=yes", "--threshold=100", out],
                stdout=subprocess.PIPE,
                check=True,
            )
            .stdout.decode()
            .splitlines()
        )
        calls = calls_in(out)
    costs = [
        (int(found[1].replace(",", "")), found[2])
        for line in lines
        if (found := re.match(r"\s*([\d,]+)(?: \([ \d.]+%\))?\s+(.*)", line))
    ]
    whole = next(cost for cost, name in costs if "PROGRAM TOTALS" in name)
    for pattern in PLACINGS:
        spent = [cost for cost, name in costs if re.search(pattern, name)]
        if spent:
            number = sum(
                n for (_, callee), n in calls.items() if callee and re.search(pattern, callee)
            )
            return whole, (max(spent), pattern, number)
    return whole, None


def rosters(script: dict[str, Any]) -> list[list[list[dict[str, Any]]]]:
    routines = {r["name"]: r["commands"] for r in script["routines"]}
    return [[routines[run["routine"]] for run in window["runs"]] for window in script["windows"]]


def placings_told(record: str) -> list[list[list[str]]]:
    """The entries of each window of a record up to its last placing."""
    windows = [
        [line[2:].split(" ") for line in part.splitlines() if line.startswith("# ")]
        for part in record.split("\nwindow ")[1:]
    ]
    lasts = (
        max((k for k, entry in enumerate(entries) if entry[0] == "placed"), default=-1)
        for entries in windows
    )
    return [entries[: last + 1] for entries, last in zip(windows, lasts)]


class Found:
    """What placings were, one after another."""

    def __init__(self) -> None:
        self.in_front, self.rounds, self.exchanges = 0, list[int](), list[int]()
        self.ends, self.by_places = list[int](), list[int]()

    def place(self, timeline: Timeline, r: int, moment: int) -> int:
        """Counts the placing that comes next in the timeline; its place."""
        before, rounds = timeline.places_before(r, moment)
        self.in_front += len(before) < len(timeline.line)
        self.rounds.append(rounds)
        self.exchanges.append(sum(place - k for k, place in enumerate(before)))
        self.ends.append(last_end(timeline.plan(r, timeline.items(before), moment)))
        self.by_places.append(last_end(timeline.plan_by_places(r, moment)))
        return len(before)

    def lines(self) -> Iterator[str]:
        placed, pairs = len(self.rounds), list(zip(self.ends, self.by_places))
        earlier, later = sum(end < other for end, other in pairs), sum(
            end > other for end, other in pairs
        )
        yield (
            f"{placed} placed, {self.in_front} in front of others, "
            f"{sum(map(bool, self.exchanges))} where the line is rearranged"
        )
        yield f"rounds {mean_and_most(self.rounds)}; exchanges {mean_and_most(self.exchanges)}"
        yield (
            f"planned end {statistics.fmean(self.ends):,.0f} ms, by one place "
            f"{statistics.fmean(self.by_places):,.0f} ms:"
            f" {earlier} earlier, {later} later"
        )


def last_end(plan: dict[str, tuple[int, int]]) -> int:
    return max((end for _, end in plan.values()), default=0)


def mean_and_most(numbers: list[int]) -> str:
    return f"{statistics.fmean(numbers):.2f}, at most {max(numbers)}"


def found_by_rules(script: Any) -> Any:
    """The placings of windows whose runs are all placed at the moment 0."""
    found = Found()
    for runs in rosters(script):
        timeline = Timeline(runs, [None] * len(runs))
        for r in timeline.commands:
            timeline.place(r, found.place(timeline, r, 0), 0)
    return found


def found_in(record: str, script: dict[str, Any]) -> Found:
    """The placings that a record tells, each of which is where the rules have it."""
    found = Found()
    for runs, entries in zip(rosters(script), placings_told(record)):
        timeline = Timeline(runs, [None] * len(runs))
        for entry in entries:
            if entry[0] == "placed" and found.place(timeline, int(entry[1]), int(entry[5])) != int(
                entry[3]
            ):
                sys.exit(f"the record has `{' '.join(entry)}`, and the rules another place")
            timeline.follow(entry)
    return found


def instructions(program: str, script: str, placed: int) -> str:
    whole, placings = counted(program, "timeline", script)
    first, _ = counted(program, "fcfs", script)
    if placings:
        spent, found, number = placings
        each = f"{spent / max(number, 1):,.0f} instructions a placing ({number} calls of {found})"
    else:
        each = (
            f"{(whole - first) / placed:,.0f} instructions a run more than first come first served"
        )
    return f"{each}; {whole:,} for the day, {first:,} of it served first come first"


def main() -> None:
    counts_alone = sys.argv[1:] == ["--counts"]
    program = "" if counts_alone else program_asked(__doc__)
    for name, (commands, devices, own) in DAYS.items():
        for runs in SIZES:
            drawn = day(4, runs, commands, devices, own)
            if counts_alone:
                lines = list(found_by_rules(drawn).lines())
            else:
                script = arriving_first(drawn)
                record = subprocess.run(
                    [program, *words("timeline")],
                    input=script,
                    capture_output=True,
                    text=True,
                    check=True,
                )
                found = found_in(record.stdout, drawn)
                lines = [*found.lines(), instructions(program, script, len(found.rounds))]
            print(f"{name}, {runs} runs a window:", *lines, sep="\n  ", flush=True)


if __name__ == "__main__":
    main()
