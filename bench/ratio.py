#!/usr/bin/env python3
"""Compares the program with a plain program by the same rules, without proofs: bench/plain, in
Rust.

    python3 -m bench.ratio [PROGRAM] [--unproved] [--write]

PROGRAM is crates/hub_main/out/hub_main by default, which `rt run` builds; the plain program is
built by `rustc -O`. Wants valgrind: callgrind counts the instructions of both, which no other work
on the machine changes, on days of four windows drawn by dense_day.py, each under the models with an
order, just in time, and by the timeline. Both records must be the same. The whole call is counted,
and the day alone, without its script's reading. Then both check these records, and play a trial of
as many windows and one of six times as many: what they print must be the same, and the judging of
the record is counted alone as well. Then both run the dense day of 288 windows with a thread for
each run, in turn, five times: the least times count, and each record must be one with which the
program's `check` agrees. In the same way the replay of that day is timed, its check, and a trial of
as many windows.

The tables are printed. With `--write` they take the place of what stands between the lines `<!--
ratios -->` and `<!-- end of ratios -->` of docs/PERFORMANCE.md. `--unproved` says above them that
the program was built without proof.
"""
from __future__ import annotations

import argparse
import os
import re
import subprocess
import sys
import tempfile

from bench.figures import DAYS, head_row, heading, made, row, with_windows, write
from bench.scale import memory, seconds, shown
from bench.time_replay import PROGRAM, built, dense_day, words
from bench.time_run import timed

HERE = os.path.dirname(os.path.abspath(__file__))
SOURCE = os.path.join(HERE, "plain", "main.rs")
MARKS = "<!-- ratios -->", "<!-- end of ratios -->"
MODES = ["ev", "gsv", "psv", "jit", "timeline"]
WINDOWS, TIMES = 4, 5
# the functions that play and print a day which is read, and that judge a record
PLAYS = {
    "program": r"hub_commands::replays::replay_(day|next)\b",
    "plain": r"plain::play_day\b|main::play_day\b",
}
JUDGES = {
    "program": r"order_checker::records::check_record\b",
    "plain": r"plain::check::check_record\b",
}


def plain_program(folder: str) -> str:
    path = os.path.join(folder, "plain")
    subprocess.run(
        [
            "rustc",
            "-O",
            "-C",
            "codegen-units=1",
            "--edition",
            "2024",
            "--crate-name",
            "plain",
            "-o",
            path,
            SOURCE,
        ],
        check=True,
    )
    return path


def counted(part: str, called: list[str], script: bytes) -> tuple[int, int]:
    """The instructions of a call, and of a part of it."""
    with tempfile.TemporaryDirectory() as room:
        out = os.path.join(room, "callgrind")
        subprocess.run(
            ["valgrind", "--tool=callgrind", f"--callgrind-out-file={out}", *called],
            input=script,
            stdout=subprocess.DEVNULL,
            stderr=subprocess.DEVNULL,
            check=True,
        )
        lines = (
            subprocess.run(
                ["callgrind_annotate", "--inclusive=yes", "--threshold=100", out],
                stdout=subprocess.PIPE,
                check=True,
            )
            .stdout.decode()
            .splitlines()
        )

    def number(pattern: str) -> int:
        return next(
            int(line.split()[0].replace(",", "")) for line in lines if re.search(pattern, line)
        )

    return number("PROGRAM TOTALS"), number(part)


def record(called: list[str], script: bytes) -> bytes:
    return subprocess.run(called, input=script, stdout=subprocess.PIPE, check=True).stdout


def instructions(programs: dict[str, str]) -> None:
    """The table of replays."""
    head_row("Day", *(f"`{mode}`" for mode in MODES))
    for day, sizes in DAYS.items():
        script = with_windows(sizes, WINDOWS)
        row(day, *(compared(programs, words(mode), script, PLAYS) for mode in MODES))


def compared(
    programs: dict[str, str], asked: list[str], given: bytes, parts: dict[str, str]
) -> str:
    """How many times the instructions of the plain program the program takes for this call, and in
    brackets for its part. Both must print the same.
    """
    calls = {which: [path, *asked] for which, path in programs.items()}
    first, second = (record(called, given) for called in calls.values())
    if first != second:
        sys.exit(f"ratio: the two differ in {' '.join(asked)}")
    whole, part = zip(*(counted(parts[which], called, given) for which, called in calls.items()))
    return f"{whole[0] / whole[1]:.2f} ({part[0] / part[1]:.2f})"


def judged(programs: dict[str, str]) -> None:
    """The table of checks and trials."""
    trials = [WINDOWS, 6 * WINDOWS]
    print()
    head_row("", *DAYS, *(f"{windows} windows" for windows in trials))
    checks = []
    for sizes in DAYS.values():
        script = with_windows(sizes, WINDOWS)
        given = with_record(script, record([programs["program"], "replay"], script))
        checks.append(compared(programs, ["check"], given, JUDGES))
    row("`check`, `ev`", *checks, *("" for _ in trials))
    row(
        "`trial`",
        *("" for _ in DAYS),
        *(compared(programs, ["trial", str(windows)], b"", JUDGES) for windows in trials),
    )


def with_record(script: bytes, told: bytes) -> bytes:
    return script + b"%%\n" + told


def agrees(program: str, script: bytes, told: bytes) -> bool:
    return (
        subprocess.run(
            [program, "check"], input=with_record(script, told), stdout=subprocess.DEVNULL
        ).returncode
        == 0
    )


def spent(called: list[str], script: bytes) -> tuple[float, float, int]:
    status, clock, used = timed(called, script)
    if status != 0:
        sys.exit(f"ratio: {called[1:]} ended with {status}")
    return clock, seconds(used), used.ru_nvcsw


def times(programs: dict[str, str]) -> None:
    """The table of the times of the dense day."""
    print()
    head_row(
        "The dense day",
        "Mode",
        "Clock, s: program",
        "plain program",
        "Ratio",
        "Processor time, s: program",
        "plain program",
        "Ratio",
        "Memory, MB: program",
        "plain program",
        "Threads slept: program",
        "plain program",
    )
    script = dense_day()
    for command, model in [("replay", "ev"), ("replay", "gsv"), ("run", "ev"), ("run", "gsv")]:
        calls = [[path, *words(model, command)] for path in programs.values()]
        for called in calls:
            if not agrees(programs["program"], script, record(called, script)):
                sys.exit(
                    f"ratio: the program does not agree with a record of the dense day by {called}"
                )
        timed_row(calls, script, f"`{command}`", f"`{model}`")
    given = with_record(script, record([programs["program"], "replay"], script))
    timed_row([[path, "check"] for path in programs.values()], given, "`check`", "`ev`")
    timed_row(
        [[path, "trial", "288"] for path in programs.values()], b"", "`trial 288`", "its own day"
    )


def timed_row(calls: list[list[str]], given: bytes, *cells: str) -> None:
    """A row of what the two calls take, in turn."""
    tries = [[spent(called, given) for called in calls] for _ in range(TIMES)]
    (clock, used, slept), (plain_clock, plain_used, plain_slept) = (
        [min(one[k] for one in of_one) for k in range(3)] for of_one in zip(*tries)
    )
    heaps = [shown(memory(called, given), 1024) for called in calls]
    sleeps = [f"{slept:,}", f"{plain_slept:,}"] if calls[0][1] == "run" else ["", ""]
    row(
        *cells,
        f"{clock:.2f}",
        f"{plain_clock:.2f}",
        f"{clock / plain_clock:.2f}",
        f"{used:.2f}",
        f"{plain_used:.2f}",
        f"{used / plain_used:.2f}",
        *heaps,
        *sleeps,
    )


def main() -> None:
    reader = argparse.ArgumentParser(
        description=__doc__, formatter_class=argparse.RawDescriptionHelpFormatter
    )
    reader.add_argument("program", nargs="?", default=PROGRAM, metavar="PROGRAM")
    reader.add_argument("--unproved", action="store_true")
    reader.add_argument("--write", action="store_true")
    given = reader.parse_args()
    with tempfile.TemporaryDirectory() as folder:
        programs = {
            "program": os.path.realpath(built(given.program)),
            "plain": plain_program(folder),
        }
        compiler = (
            subprocess.run(["rustc", "--version"], stdout=subprocess.PIPE, check=True)
            .stdout.decode()
            .strip()
        )
        title = f"{heading(programs['program'], given.unproved)} The plain program by {compiler}."
        text = made(
            title, lambda: instructions(programs), lambda: judged(programs), lambda: times(programs)
        )
    if given.write:
        write("PERFORMANCE.md", text, MARKS)


if __name__ == "__main__":
    main()
