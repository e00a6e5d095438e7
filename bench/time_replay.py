#!/usr/bin/env python3
"""Times a replay of a dense day of must `set` commands under each model with an order, just in
time, and by the timeline.

    time_replay.py [PROGRAM]

PROGRAM is crates/hub_main/out/hub_main by default, which `rt run` builds. Seven scripts are played,
the first three under each model, served first come first, and under the eventual model just in
time, which is called `jit` here, and by the `timeline`:

- dense: 288 windows of 64 runs of 64 commands on 256 devices;
- failing: the same, where devices fail, with two rounds of probes;
- aborted: the same, where the last command of every third routine refutes its runs;
- contended: 288 windows of 64 runs of 64 commands, each run on 8 of 16 devices, whose commands take
  half as long again as is estimated, so that leases are revoked; under `ev`, `jit` and `timeline`;
- small: 288 windows of 64 runs of 4 commands on 32 devices, in which the timeline finds gaps; under
  the same;
- refused: the dense day, with a last run that names no routine, so that it is read to its end and
  no more;
- empty: the dense day without runs, so that it is read, and its windows are opened, closed and
  printed.

Where callgrind is installed, it counts the instructions of a day of four such windows, and of its
parts, in each mode; of such a day whose routines have 8 devices of their own each, under psv; and,
under gsv and ev, just in time and by the timeline, of days with fewer runs a window and with fewer
devices. With each goes how many instructions of all but reading there are for each entry of the
day's history, by the lines of its trace.
"""
from __future__ import annotations

import argparse
import collections
import os
import re
import shutil
import subprocess
import sys
import tempfile
import time
from typing import Any

HERE = os.path.dirname(os.path.abspath(__file__))
PROGRAM = os.path.join(HERE, "..", "crates", "hub_main", "out", "hub_main")
MODES = ["gsv", "psv", "ev", "jit", "timeline"]
SCHEDULERS = ["jit", "timeline"]
CALLS = {
    "whole": r"PROGRAM TOTALS",
    "day": r"hub_commands::replays::replay_(day|next)\b",
    "picks": r"run_replay::players::Player::(pick|waits_at)\b",
}


def built(program: str) -> str:
    """The program, where it is there."""
    if not os.path.isfile(program):
        sys.exit(
            f"there is no built program at {os.path.relpath(program)}: `rt run` and `rt ci` build "
            f"it"
        )
    return program


def dense_day(*sizes: int) -> bytes:
    made = subprocess.run(
        [sys.executable, os.path.join(HERE, "dense_day.py"), *map(str, sizes)],
        stdout=subprocess.PIPE,
        check=True,
    )
    return made.stdout


def refused(script: Any) -> Any:
    """The script with a last run that names no routine."""
    return re.sub(rb'"r\d+"\}\]\}\]\}\n$', b'"none"}]}]}\n', script)


def words(mode: str, command: str = "replay") -> list[str]:
    return [command, "--scheduler" if mode in SCHEDULERS else "--model", mode]


def played(program: str, name: str, mode: str, script: bytes) -> None:
    with tempfile.TemporaryFile() as given, tempfile.TemporaryFile() as record:
        given.write(script)
        given.seek(0)
        begun = time.monotonic()
        child = subprocess.Popen(
            [program, *words(mode)], stdin=given, stdout=record, stderr=subprocess.DEVNULL
        )
        _, status, used = os.wait4(child.pid, 0)
        child.returncode = os.waitstatus_to_exitcode(status)
        spent = time.monotonic() - begun
        size = record.seek(0, os.SEEK_END)
    cpu = used.ru_utime + used.ru_stime
    print(
        f"{name}, {mode}: status {child.returncode}, {cpu:.2f} s of processor time, {spent:.2f} s "
        f"in all,"
        f" {len(script)} bytes of script, {size} bytes of record, {used.ru_maxrss / 1024:.0f} MB "
        f"at most",
        flush=True,
    )


def calls_in(path: str) -> collections.Counter[tuple[str | None, str | None]]:
    """How often each function calls another one, by the names that callgrind gives them."""
    names: dict[bytes | str, str] = {}
    calls = collections.Counter[tuple[str | None, str | None]]()
    caller: str | None = None
    callee: str | None = None
    with open(path) as lines:
        for line in lines:
            found = re.match(r"(c?)fn=\((\d+)\)(?: (.*))?", line)
            if found:
                name = names.setdefault(found[2], found[3])
                caller, callee = (caller, name) if found[1] else (name, callee)
            elif line.startswith("calls="):
                calls[caller, callee] += int(line[6:].split()[0])
    return calls


def entries_of(program: str, mode: str, script: bytes) -> int:
    """How many entries the histories of the day's windows have."""
    told = subprocess.run(
        [program, *words(mode), "--trace"], input=script, stdout=subprocess.PIPE, check=True
    ).stdout
    return sum(line.startswith(b"# ") for line in told.splitlines())


def counted(program: str, name: str, mode: str, script: bytes) -> None:
    with tempfile.TemporaryDirectory() as room:
        out = os.path.join(room, "callgrind")
        subprocess.run(
            ["valgrind", "--tool=callgrind", f"--callgrind-out-file={out}", program, *words(mode)],
            input=script,
            stdout=subprocess.DEVNULL,
            stderr=subprocess.DEVNULL,
            check=True,
        )
        lines = (
            subprocess.run(
                ["callgrind_annotate", "--inclusive=yes", "--threshold=100", out],
                stdout=subprocess.PIPE,
                check=True,
            )
            .stdout.decode()
            .splitlines()
        )
    whole, day, picked = (
        next(int(line.split()[0].replace(",", "")) for line in lines if re.search(called, line))
        for called in CALLS.values()
    )
    entries = entries_of(program, mode, script)
    print(
        f"{name}, {mode}: {whole:,} instructions, {whole - day:,} for words and script, "
        f"{day - picked:,} for the home,"
        f" the draws and the record, {picked:,} for the picks; {entries:,} entries, "
        f"{picked // entries:,} instructions of picks"
        f" for each, {day // entries:,} of all but reading",
        flush=True,
    )


def program_asked(about: str) -> str:
    """The built program that the words of a call name."""
    reader = argparse.ArgumentParser(
        description=about, formatter_class=argparse.RawDescriptionHelpFormatter
    )
    reader.add_argument("program", nargs="?", default=PROGRAM, metavar="PROGRAM")
    return built(reader.parse_args().program)


def main() -> None:
    program = program_asked(__doc__)
    print("load", *(f"{load:.1f}" for load in os.getloadavg()), flush=True)
    dense = dense_day()
    for mode in MODES:
        played(program, "dense", mode, dense)
    failing = dense_day(288, 64, 64, 256, 0, 2)
    for mode in MODES:
        played(program, "failing", mode, failing)
    aborted = dense_day(288, 64, 64, 256, 0, 0, 3)
    for mode in MODES:
        played(program, "aborted", mode, aborted)
    contended = dense_day(288, 64, 64, 16, 8, 0, 0, 50)
    small = dense_day(288, 64, 4, 32)
    for mode in ["ev", *SCHEDULERS]:
        played(program, "contended", mode, contended)
        played(program, "small", mode, small)
    for name, script in [("refused", refused(dense)), ("empty", dense_day(288, 0))]:
        played(program, name, "gsv", script)
    if shutil.which("callgrind_annotate"):
        for mode in MODES:
            counted(program, "dense", mode, dense_day(4))
            counted(program, "failing", mode, dense_day(4, 64, 64, 256, 0, 2))
            counted(program, "aborted", mode, dense_day(4, 64, 64, 256, 0, 0, 3))
        for mode in ["ev", *SCHEDULERS]:
            counted(program, "contended", mode, dense_day(4, 64, 64, 16, 8, 0, 0, 50))
            counted(program, "small", mode, dense_day(4, 64, 4, 32))
        counted(program, "8 devices a run", "psv", dense_day(4, 64, 64, 256, 8))
        for mode in ["gsv", "ev", *SCHEDULERS]:
            for runs in [8, 16, 32]:
                counted(program, f"{runs} runs a window", mode, dense_day(4, runs))
            for devices in [16, 64]:
                counted(program, f"{devices} devices", mode, dense_day(4, 64, 64, devices))
    else:
        print("callgrind is not installed: no instructions were counted")


if __name__ == "__main__":
    main()
