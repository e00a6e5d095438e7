#!/usr/bin/env python3
"""Kills the program while it keeps a day, again and again, and judges what is left each time.

    python3 -m dev.crash [--program P] [--kills N] [--full N] [--seed S] [--folder F]

By default 500 kills and 100 full files of the seed 1, with crates/hub_main/out/hub_main, which `rt
run` and `rt ci` build. Days of 24 windows are drawn, every second one with devices that fail. Each
is kept by `keep` in an empty folder, which is made in F or where the system makes such folders. A
call is killed by SIGKILL after a time that is drawn, up to a third of that of a whole day, and the
day is begun again until it is over. Each time:

- the file is not damaged, and keeps the states that it kept, and behind them a first part of those
  of this call;
- the output is a first part of what the reference says of a call on the file as it was, and has no
  byte of a window whose state is not in the file.

In the end each window of the script was kept once, by one of the calls; where no device fails their
lines are those of one replay, and `check` finds that they agree. (A kill between the keeping of a
window and its lines leaves these away: they are then those of the reference, which the other calls
wrote byte for byte.)

Then days are kept in a file that may not grow beyond a number of bytes that is drawn
(RLIMIT_FSIZE): the call ends with 9, and what it leaves is judged in the same way; begun again
without the limit, the day ends.

Prints counts at the end. The first trouble leaves script and file in the current folder, and ends
with 1.
"""
from __future__ import annotations

import argparse
import collections
import json
import os
import random
import re
import resource
import signal
import subprocess
import sys
import tempfile
import time
from collections.abc import Callable, Sequence
from typing import Any, TypeVar

from reference import days
from reference.calls import BytesSink, BytesSource, Call
from reference.compare import MODES, PROGRAM
from reference.disks import NAME, BytesDisk
from reference.journal import Damaged, file_bytes, kept_states
from reference.script import read_script
from reference.serial import Stand

WINDOWS, RUNS = 24, 6
Done = TypeVar("Done")
MINUTE = 60


class Wrong(Exception):
    """What is not as it should be."""


def expect(true: bool, what: str) -> None:
    if not true:
        raise Wrong(what)


def drawn_day(draw: random.Random, fails: bool) -> dict[str, Any]:
    """A day of many windows."""
    script = days.day(draw)
    for device in script["devices"]:
        if not fails:
            device.pop("down", None)
    script["windows"] = [
        {
            "at": f"2021-04-26T07:{k:02}:00",
            "probes": draw.choice([0, 1, 2]),
            "runs": [
                days.run(draw, script["routines"], before)
                for before in range(draw.randint(1, RUNS))
            ],
        }
        for k in range(WINDOWS)
    ]
    return days.with_picks(draw, script)


def call_reference(
    words: list[str], data: bytes, file: bytes = b""
) -> tuple[bytes, bytes, list[Sequence[Stand]]]:
    """The output, the file and the states after the windows of a call of the reference."""
    sink, disk = BytesSink(), BytesDisk(file)
    call = Call(words, BytesSource(data), sink, disk)
    expect(call.status == 0, f"the reference ends with {call.line}")
    return sink.held, disk.held, [record.last for record in call.records]


def begun(output: bytes, wanted: bytes) -> int:
    """Of how many windows the output, a first part of what is wanted, has a byte."""
    return sum(
        found.start() < len(output) for found in re.finditer(rb"^window ", wanted, re.MULTILINE)
    )


def parts(text: bytes) -> list[str]:
    """The text of each window of a kept day, and its total."""
    lines, found = text.decode().split("\n")[3:-1], []
    for line in lines:
        if line.startswith(("window ", "total ")):
            found.append("")
        found[-1] += f"{line}\n"
    return found


class Day:
    """A day that is kept by one call after another, in a folder of its own."""

    def __init__(self, program: str, draw: random.Random, number: int, folder: str) -> None:
        model, scheduler = MODES[number % len(MODES)]
        self.fails = number % 2 == 1
        self.mode = ["--model", model, "--scheduler", scheduler, "--trace"]
        self.data = json.dumps(drawn_day(draw, self.fails)).encode()
        self.program, self.folder = program, folder
        self.path, self.input = os.path.join(folder, NAME), os.path.join(folder, "day.json")
        with open(self.input, "wb") as out:
            out.write(self.data)
        script = read_script(self.data)
        self.kinds = [device.kind for device in script.devices]
        self.is_weak = model == "wv"
        self.joined: list[str] = []  # the text of each window that was kept

    def file(self) -> bytes:
        if not os.path.exists(self.path):
            return b""
        with open(self.path, "rb") as stored:
            return stored.read()

    def states(self, file: bytes) -> list[list[Stand]]:
        try:
            return kept_states(self.kinds, WINDOWS, file)
        except Damaged as damaged:
            raise Wrong(f"the file is damaged at slot {damaged.args[0] + 1}") from None

    def start(self, most: int | None = None) -> subprocess.Popen[bytes]:
        """Begins a call. The file may have at most so many bytes."""
        limit = (
            None
            if most is None
            else lambda: resource.setrlimit(resource.RLIMIT_FSIZE, (most, most))
        )
        with open(self.input, "rb") as given:
            # a write over the limit fails, and sends no signal: Python does not heed it, nor does
            # its child then
            return subprocess.Popen(
                [self.program, "keep", *self.mode],
                stdin=given,
                stdout=subprocess.PIPE,
                stderr=subprocess.PIPE,
                cwd=self.folder,
                preexec_fn=limit,
                restore_signals=False,
            )

    def judge(self, before: bytes, output: bytes) -> tuple[int, int]:
        """Judges what a call has left that found the file as it was before."""
        wanted, _, states = call_reference(["keep", *self.mode], self.data, before)
        old, new = self.states(before), self.states(self.file())
        expect(new[: len(old)] == old, "what was kept has gone")
        count = len(new) - len(old)
        expect(count >= 0 and new == (old + states)[: len(new)], "the file keeps another state")
        expect(wanted.startswith(output), "the output is not a first part of that of the reference")
        written = begun(output, wanted)
        expect(written <= count, "a window is written whose state is not kept")
        self.joined += parts(wanted)[:count]
        return count, written

    def end(self, before: bytes, output: bytes, line: bytes, status: int) -> None:
        """Judges a call that has ended by itself, and with it the day."""
        wanted, file, _ = call_reference(["keep", *self.mode], self.data, before)
        expect(
            (status, line, output) == (0, b"", wanted),
            f"status {status}, {line!r}, or another output",
        )
        expect(self.file() == file, "the file is another one")
        self.judge(before, output)
        self.judge_joined()

    def judge_joined(self) -> None:
        """Judges the day, which is over."""
        expect(
            self.file() == file_bytes(self.states(self.file())),
            "the file has something besides the states",
        )
        numbers = [part.split(" ", 2)[1] for part in self.joined]
        expect(
            numbers == [f"{k}" for k in range(1, WINDOWS + 1)],
            "a window is missing, or there twice",
        )
        if not self.fails:
            record, _, _ = call_reference(["replay", *self.mode], self.data)
            expect("".join(self.joined) in record.decode(), "the windows are not those of a replay")
            checked = Call(["check"], BytesSource(self.data + b"\n%%\n" + record), BytesSink())
            expect(checked.status == 0 or self.is_weak, f"the windows do not agree: {checked.line}")


class Crash:
    """Days that are kept, and what was counted of them."""

    def __init__(self, program: str, draw: random.Random, folder: str) -> None:
        self.program, self.draw, self.folder = program, draw, folder
        self.counts = collections.Counter[str]()
        self.day: Day

    def open_day(self, folder: str) -> None:
        self.day = Day(self.program, self.draw, self.counts["days"], folder)
        self.counts["days"] += 1

    def whole(self) -> float:
        """How long the day takes that is kept by one call, in s."""
        begun_at = time.monotonic()
        child = self.day.start()
        child.communicate(timeout=MINUTE)
        os.remove(self.day.path)
        return time.monotonic() - begun_at

    def kill_a_day(self, kills: int) -> int:
        """Kills calls until the day is over, at most so many. How many are left."""
        longest = self.whole() / 3
        while kills > 0:
            before = self.day.file()
            child = self.day.start()
            time.sleep(self.draw.uniform(0, longest))
            child.send_signal(signal.SIGKILL)
            output, line = child.communicate(timeout=MINUTE)
            if child.returncode != -signal.SIGKILL:
                self.day.end(before, output, line, child.returncode)
                return kills
            kills -= 1
            self.count_kill(before, output)
        self.end_day()
        return 0

    def end_day(self) -> None:
        """Begins the day again, and lets it end."""
        before = self.day.file()
        child = self.day.start()
        self.day.end(before, *child.communicate(timeout=MINUTE), child.returncode)

    def count_kill(self, before: bytes, output: bytes) -> None:
        kept, written = self.day.judge(before, output)
        self.counts["kills"] += 1
        self.counts["kills before the file had a byte"] += not self.day.file()
        self.counts["windows kept by calls that were killed"] += kept
        self.counts["kills between the keeping of a window and its first byte"] += written < kept
        whole = len(file_bytes(self.day.states(self.day.file())))
        self.counts["kills inside the keeping of a window"] += len(self.day.file()) > whole

    def fill_a_day(self) -> None:
        """Keeps the day in a file that may not grow, and then in one that may."""
        size = WINDOWS * (7 + 5 * len(self.day.kinds))
        child = self.day.start(self.draw.randint(0, size))
        output, line = child.communicate(timeout=MINUTE)
        expect(
            (child.returncode, line) == (9, b"disk\n"),
            f"status {child.returncode} and {line!r} of a full file",
        )
        kept, written = self.day.judge(b"", output)
        expect(written == kept, "a window that was kept was not written")
        self.counts["full files"] += 1
        self.counts["windows kept in full files"] += kept
        self.end_day()

    def play(self, work: Callable[[], Done]) -> Done:
        """Has a day played in an empty folder."""
        with tempfile.TemporaryDirectory(dir=self.folder) as folder:
            self.open_day(folder)
            try:
                return work()
            except (Wrong, subprocess.TimeoutExpired) as trouble:
                for name, content in [
                    ("crash.json", self.day.data),
                    ("crash.journal", self.day.file()),
                ]:
                    with open(name, "wb") as out:
                        out.write(content)
                sys.exit(
                    f"crash: {' '.join(self.day.mode)}: {trouble}; crash.json and crash.journal "
                    f"have script and file"
                )


def main() -> None:
    options = argparse.ArgumentParser(
        description=__doc__, formatter_class=argparse.RawDescriptionHelpFormatter
    )
    options.add_argument("--program", default=PROGRAM)
    options.add_argument("--kills", type=int, default=500)
    options.add_argument("--full", type=int, default=100)
    options.add_argument("--seed", type=int, default=1)
    options.add_argument("--folder")
    asked = options.parse_args()
    if not os.path.isfile(asked.program):
        sys.exit("crash: there is no such program; `rt run` in crates/hub_main builds it")
    crash, kills = (
        Crash(os.path.abspath(asked.program), random.Random(asked.seed), asked.folder),
        asked.kills,
    )
    while kills > 0:
        most = kills
        kills = crash.play(lambda: crash.kill_a_day(most))
    for _ in range(asked.full):
        crash.play(crash.fill_a_day)
    for what, count in crash.counts.items():
        print(f"{what}: {count}")


if __name__ == "__main__":
    main()
