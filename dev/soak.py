#!/usr/bin/env python3
"""Plays drawn days through the built program, day after day, and judges all that it does.

    soak.py [--seed S] [--days N] [--first K] [--guards] [--program P] [--seconds-per-call B]

By default 2000 days of the seed 1, through crates/hub_main/out/hub_main, which `rt run` and `rt ci`
build. Each day is drawn from the seed and its own number, so `--first K --days 1` plays one again.
One in four is wide: 5 to 24 devices, 8 to 64 runs a window; the others are small
(reference/days.py). All have commands of every job, devices that fail in calls of listed numbers,
probes, runs that follow others, turns and seeds, and each is played in one mode after another:
under each model, just in time, by the timeline; three in four with the trace. One in eight is
spoiled, so that it is refused as a rule. With `--guards` many commands have guards.

- `replay`: status, record and standard error are the reference's, byte for byte.
- `run`: a spoiled day ends as its replay does. Which threads step first is not the day's to say, so
  no record is expected of another one: it ends with 0, and a traced record is judged by a serial
  execution of its own (judge_runs.py).
- `check` of both records: `agrees`, and under the weak model `check: window 0 head` with 7; of a
  record of which one word was changed, what the reference says.

No call may take longer than B seconds, 30 by default. Prints counts at the end. The first trouble
leaves the day in a file, prints what came, and ends with 1.
"""
from __future__ import annotations

import argparse
import collections
import json
import random
import re
import shutil
import subprocess
import sys
import time
from typing import Any

from dev.judge_runs import Wrong, expect, judge
from reference import days
from reference.compare import MODES, PROGRAM, Came, wanted

WEAK = (7, b"", b"check: window 0 head\n")
AGREES = (0, b"agrees\n", b"")
COUNTED = {
    "fell": rb"^# fell ",
    "rose": rb"^# rose ",
    "undid": rb"^# undid ",
    "revoked": rb"^run \d+ \S+ aborted revoked ",
    "lost": rb"^run \d+ \S+ aborted lost ",
}


def wide_day(draw: random.Random) -> dict[str, int | list[dict[str, Any]]]:
    """A day of one or two windows with many runs on many devices."""
    devices = [days.device(draw, d) for d in range(draw.randint(5, 24))]
    routines = [
        {
            "name": f"r{r}",
            "commands": [days.command(draw, devices) for _ in range(draw.randint(1, 12))],
        }
        for r in range(draw.randint(4, 12))
    ]
    windows = [
        {
            "at": f"2021-04-26T07:0{k}:00",
            "probes": draw.choice([0, 1, 2, 5]),
            "runs": [days.run(draw, routines, before) for before in range(draw.randint(8, 64))],
        }
        for k in range(draw.randint(1, 2))
    ]
    return {"safehome": 1, "devices": devices, "routines": routines, "windows": windows}


class Day:
    """A drawn day: its mode, its script, and the script's text, which is spoiled in one of
    eight.
    """

    def __init__(self, seed: int, k: int, has_guards: bool) -> None:
        draw = random.Random(f"{seed} {k}")
        self.name, self.draw = f"{seed}-{k}", draw
        self.model, self.scheduler = MODES[k % len(MODES)]
        self.script = (
            days.with_picks(draw, wide_day(draw))
            if draw.random() < 0.25
            else days.day_for(draw, self.scheduler)
        )
        if has_guards:
            days.guarded(draw, self.script)
        self.is_spoiled, self.is_traced = draw.random() < 0.125, draw.random() < 0.75
        self.text = (
            days.spoiled(draw, self.script) if self.is_spoiled else json.dumps(self.script)
        ).encode()

    def words(self, command: str) -> list[str]:
        return [command, "--model", self.model, "--scheduler", self.scheduler] + [
            "--trace"
        ] * self.is_traced


class Soak:
    """Days that are played one after another, and what was counted of them."""

    def __init__(self, program: str, seconds: int) -> None:
        self.program, self.seconds, self.counts = program, seconds, collections.Counter[str]()
        self.longest = 0.0
        self.last: tuple[list[str], bytes, Came | None] | None = None

    def call(self, words: list[str], data: bytes) -> Came:
        """What the program does with these words and this input: its status, standard output and
        standard error.
        """
        self.last = words, data, None
        begun = time.monotonic()
        try:
            done = subprocess.run(
                [self.program, *words], input=data, capture_output=True, timeout=self.seconds
            )
        except subprocess.TimeoutExpired:
            raise Wrong(f"no end after {self.seconds} s") from None
        self.longest = max(self.longest, time.monotonic() - begun)
        came = done.returncode, done.stdout, done.stderr
        self.last = words, data, came
        self.counts[f"status {done.returncode}"] += 1
        return came

    def play(self, day: Day) -> None:
        replay = self.call(day.words("replay"), day.text)
        expect(replay == wanted(day.words("replay"), day.text), "the replay is not the reference's")
        run = self.call(day.words("run"), day.text)
        if day.is_spoiled:
            refused = (1, b"") if replay[0] == 1 else (0, run[1])
            expect(
                run == (*refused, replay[2]), "a spoiled day is run otherwise than it is replayed"
            )
            self.counts["refused"] += replay[0] == 1
            return
        expect(
            (run[0], run[2]) == (0, b""), "the run has not ended with 0, or wrote on standard error"
        )
        for _, record, _ in (replay, run):
            self.judge(day, record)
        self.check(day, replay[1], run[1])

    def judge(self, day: Day, record: bytes) -> None:
        """Judges a traced record, and counts what it holds."""
        if day.is_traced:
            runs, committed = judge(day.script, record.decode(), day.model, day.scheduler)
            self.counts["runs"] += runs
            self.counts["committed"] += committed
            for name, line in COUNTED.items():
                self.counts[name] += len(re.findall(line, record, re.MULTILINE))

    def check(self, day: Day, *records: bytes) -> None:
        for record in records:
            expect(
                self.call(["check"], divided(day.text, record))
                == (WEAK if day.model == "wv" else AGREES),
                "the check differs",
            )
        if day.draw.random() < 0.25:
            damaged = divided(day.text, days.damaged(day.draw, records[0].decode()).encode())
            expect(
                self.call(["check"], damaged) == wanted(["check"], damaged),
                "a damaged record is judged otherwise",
            )
            self.counts["damaged"] += 1

    def tell_trouble(self, day: Day, wrong: Exception) -> None:
        """Leaves the input of the last call in a file, and prints what came of it."""
        assert self.last is not None
        words, data, came = self.last
        path = f"soak-{day.name}.{'checked' if words[0] == 'check' else 'json'}"
        with open(path, "wb") as out:
            out.write(data)
        print(
            f"day {day.name} under {day.model} {day.scheduler}: {wrong}\nwords: "
            f"{' '.join(words)}\ninput: {path}"
        )
        if came is not None:
            print(
                f"status "
                f"{came[0]}\n{came[1].decode(errors='replace')}{came[2].decode(errors='replace')}",
                end="",
            )


def divided(script: bytes, record: bytes) -> bytes:
    return script + b"\n%%\n" + record


def main() -> None:
    options = argparse.ArgumentParser(description=__doc__.splitlines()[0])
    options.add_argument("--seed", type=int, default=1)
    options.add_argument("--days", type=int, default=2000)
    options.add_argument("--first", type=int, default=0)
    options.add_argument("--guards", action="store_true")
    options.add_argument("--program", default=PROGRAM)
    options.add_argument("--seconds-per-call", type=float, default=30)
    asked = options.parse_args()
    program = shutil.which(asked.program)
    if program is None:
        sys.exit("soak: there is no such program; `rt run` in crates/hub_main builds it")
    soak = Soak(program, asked.seconds_per_call)
    for k in range(asked.first, asked.first + asked.days):
        day = Day(asked.seed, k, asked.guards)
        try:
            soak.play(day)
        except (Wrong, ValueError, LookupError) as wrong:
            soak.tell_trouble(day, wrong)
            sys.exit(1)
    told = ", ".join(f"{name} {count}" for name, count in sorted(soak.counts.items()))
    guards = " with guards" if asked.guards else ""
    print(
        f"{asked.days} days{guards} of the seed {asked.seed} from {asked.first}: {told}; the "
        f"longest call"
        f" {soak.longest:.2f} s; no trouble"
    )


if __name__ == "__main__":
    main()
