#!/usr/bin/env python3
"""Measures what it brings that a run joins an open window, and what a join costs.

    python3 -m bench.joining [ARCHIVE]

ARCHIVE is library/out/liblazbendix.a by default; beside it stands the shared object.

Waits: a home of blinds, which take 2 to 8 s, and of seven devices that take 10 to 40 ms; a trigger
every 3 s for ten minutes, one in five for a routine with the blinds. The clock is made up, so what
the hub itself takes counts for nothing. Each of TRIES draws is played twice: with triggers that
wait in a queue while a window is open, and with triggers that join. A trigger waits for the first
step of its run, and for its first call, which it also does for devices that runs before it hold.

Joins: what `lazbendix_add_run` costs where a window of so many runs is open, in instructions, where
callgrind is installed, and by the clock; and the memory of the home, where all its runs have joined
and where its window was opened with all of them.
"""
from __future__ import annotations

import heapq
import json
import os
import random
import subprocess
import sys
import tempfile
from collections import deque
from collections.abc import Sequence
from dataclasses import dataclass, field
from typing import TYPE_CHECKING

from bench.time_library import ARCHIVE, HERE, instructions

if TYPE_CHECKING:
    from lazbendix import Go, Hub

TRIES, TRIGGERS, GAP, MOST_RUNS = 50, 200, 3000, 64
LAMPS = [f"lamp-{n}" for n in range(1, 6)]
SWITCHED = [*LAMPS, "fan", "plug"]
Json = dict[str, object]


def switch(name: str, states: Sequence[str] = ("off", "on")) -> Json:
    return {"name": name, "states": list(states), "start": states[0]}


def routine(name: str, *sets: tuple[str, str]) -> Json:
    commands = [{"on": on, "do": "set", "to": to, "must": False} for on, to in sets]
    return {"name": name, "commands": commands}


def home() -> Json:
    """The routines with the blinds come first."""
    made = [
        routine("morning", ("blinds", "open"), ("lamp-1", "on"), ("plug", "on")),
        routine("night", ("lamp-1", "off"), ("lamp-2", "off"), ("blinds", "shut"), ("fan", "off")),
        routine("film", ("blinds", "shut"), ("lamp-3", "off")),
    ]
    made += [routine(f"{name}-{to}", (name, to)) for name in SWITCHED for to in ("on", "off")]
    devices = [switch("blinds", ("open", "shut")), *map(switch, SWITCHED)]
    return {"safehome": 1, "devices": devices, "routines": made, "windows": []}


@dataclass
class Play:
    """Ten minutes of triggers. `joins` says whether they join the window that is open."""

    hub: Hub
    draw: random.Random
    joins: bool
    now: int = 0
    windows: int = 0
    waiting: deque[int] = field(default_factory=deque)  # the moments of triggers that came
    routines: dict[int, int] = field(default_factory=dict)  # of each trigger
    triggered: list[int] = field(default_factory=list)  # of each run of the window its moment
    runs: list[int] = field(default_factory=list)  # those that have not ended
    answers: list[tuple[int, int, Go]] = field(default_factory=list)  # by their moments
    steps: list[int] = field(default_factory=list)  # what a trigger waited for its first step
    calls: list[int] = field(default_factory=list)  # .. and for its first call
    stepped: set[int] = field(default_factory=set)
    called: set[int] = field(default_factory=set)

    def add(self) -> None:
        """Makes runs of the triggers that have come, as many as the window may have."""
        while self.waiting and len(self.triggered) < MOST_RUNS:
            moment = self.waiting.popleft()
            self.triggered.append(moment)
            self.runs.append(self.hub.add_run(self.routines[moment]))

    def open(self) -> None:
        self.windows += 1
        at = f"2021-04-26T{7 + self.windows // 60:02}:{self.windows % 60:02}:00"
        number = self.hub.begin_window(at)
        self.triggered, self.runs = [], []
        self.stepped, self.called = set(), set()
        self.add()
        self.hub.window(number)

    def take(self) -> None:
        """Takes each run until all wait or have ended."""
        from lazbendix import Go, Over, Waits

        has_moved = True
        while has_moved:
            has_moved = False
            for run in list(self.runs):
                turn = self.hub.take(run, self.now)
                has_moved |= not isinstance(turn, Waits)
                waited = self.now - self.triggered[run - 1]
                if run not in self.stepped:
                    self.stepped.add(run)
                    self.steps.append(waited)
                if isinstance(turn, Over):
                    self.runs.remove(run)
                elif isinstance(turn, Go):
                    self.go(turn)
                    if run not in self.called:
                        self.called.add(run)
                        self.calls.append(waited)

    def go(self, go: Go) -> None:
        takes = self.draw.randint(2000, 8000) if go.device == 0 else self.draw.randint(10, 40)
        heapq.heappush(self.answers, (self.now + takes, go.ticket, go))

    def play(self) -> None:
        from lazbendix import Worked

        blinds, others = 3, 2 * len(SWITCHED)
        triggers = deque(range(0, TRIGGERS * GAP, GAP))
        for moment in triggers:
            of_blinds = self.draw.random() < 0.2
            self.routines[moment] = (
                self.draw.randrange(blinds) if of_blinds else blinds + self.draw.randrange(others)
            )
        is_open = False
        while triggers or self.waiting or is_open:
            while triggers and triggers[0] <= self.now:
                self.waiting.append(triggers.popleft())
            if not is_open and self.waiting:
                self.open()
                is_open = True
            elif self.joins and is_open:
                self.add()
            self.take()
            if is_open and self.hub.left() is None:
                self.hub.close_window()
                is_open = False
                continue
            comes = [triggers[0]] if triggers else []
            self.now = min(comes + [self.answers[0][0]] if self.answers else comes or [self.now])
            while self.answers and self.answers[0][0] <= self.now:
                go = heapq.heappop(self.answers)[2]
                self.hub.give(go.device, go.ticket, Worked(), self.now)


def quantiles(waits: list[int]) -> str:
    waits.sort()
    return f"{waits[len(waits) // 2]:,} ms, one in twenty {waits[len(waits) * 19 // 20]:,} ms"


def show_waits() -> None:
    from lazbendix import Hub

    text = json.dumps(home())
    for joins in (False, True):
        steps, calls, windows = list[int](), list[int](), 0
        for seed in range(TRIES):
            with Hub(text) as hub:
                play = Play(hub, random.Random(seed), joins)
                play.play()
                steps, calls = steps + play.steps, calls + play.calls
                windows += play.windows
        kind = "triggers that join" if joins else "triggers in a queue"
        print(f"{kind}: first step {quantiles(steps)}; first call {quantiles(calls)}")
        print(f"{kind}: {windows / TRIES:.1f} windows in ten minutes")


def full_home(devices: int, commands: int) -> bytes:
    """A home of one routine, which has so many commands on the first so many devices."""
    made = [switch(f"d{d}") for d in range(devices)]
    ran = routine("all", *((f"d{d}", "on") for d in range(commands)))
    script = {"safehome": 1, "devices": made, "routines": [ran], "windows": []}
    return json.dumps(script).encode()


def show_joins(program: str) -> None:
    def told(data: bytes, *words: str) -> tuple[int, int]:
        said = subprocess.run([program, *words], input=data, capture_output=True, check=True)
        spent, size = map(int, said.stdout.split())
        return spent, size

    for devices, commands, probes in [(9, 4, 100), (256, 64, 0), (256, 64, 100)]:
        data = full_home(devices, commands)
        print(f"{commands} commands, {devices} devices, {probes} rounds of probes:")
        for runs in ("1", "63"):
            words = [runs, str(probes)]
            count = instructions(program, data, "measured_join", *words)
            counted = "not counted" if count is None else f"{count:,} instructions"
            print(f"    a join at {runs} runs: {counted}, {told(data, *words)[0]:,} ns")
        sizes = [told(data, *words)[1], told(data, *words, "opened")[1]]
        print(f"    64 runs, joined: {sizes[0]:,} bytes; opened: {sizes[1]:,} bytes")


def main() -> None:
    archive = os.path.abspath(sys.argv[1] if len(sys.argv) > 1 else ARCHIVE)
    if not os.path.exists(archive):
        sys.exit("joining: there is no archive; library/build.sh makes it")
    os.environ["LAZBENDIX_LIBRARY"] = os.path.splitext(archive)[0] + ".so"
    sys.path.insert(0, os.path.join(HERE, "..", "python"))
    show_waits()
    with tempfile.TemporaryDirectory() as room:
        program = os.path.join(room, "join_steps")
        made = ["cc", "-std=c11", "-O2", os.path.join(HERE, "join_steps.c"), archive, "-o", program]
        subprocess.run(made, check=True)
        show_joins(program)


if __name__ == "__main__":
    main()
