#!/usr/bin/env python3
"""Measures the library from C: its size, and what a call costs in instructions and time.

    python3 -m bench.time_library [ARCHIVE]

ARCHIVE is library/out/liblazbendix.a by default, which library/build.sh makes. Two days of
dense_day.py are played, each call of a device answered at once: a dense window of 64 runs of 64
commands on 256 devices, and 72 windows of two runs of 4 commands on 32 devices, as bursts of
triggers make them. Times are by the clock, with two readings of it in each call. Where callgrind is
installed it counts instructions.

What a step costs more than in Rattle shows in calls of which the hub makes next to nothing: a take
of a run that there is not, and a give with another ticket. All that they cost is the library's, but
for two look-ups. Where `take` and `answer` of the live home stand in the archive under their names,
as in one that was built with them not inlined, the difference between an export and its one call is
counted too, and is the figure that is meant.
"""
import os
import re
import subprocess
import sys
import tempfile

HERE = os.path.dirname(os.path.abspath(__file__))
ARCHIVE = os.path.join(HERE, "..", "library", "out", "liblazbendix.a")
DAYS = {"dense": ["1", "64", "64", "256"], "bursts": ["72", "2", "4", "32"]}
CALLS = ["open", "window", "take", "blocked", "give", "close_window", "record"]
HOMES = {
    "take": "home_states::homes::LiveHome::take",
    "give": "home_states::homes::LiveHome::answer",
}
MOST = 150  # instructions that a step may cost more


def script(day: str) -> bytes:
    return subprocess.run(
        [sys.executable, os.path.join(HERE, "dense_day.py"), *DAYS[day]],
        capture_output=True,
        check=True,
    ).stdout


def called(program: str, data: bytes, *words: str) -> dict[str, tuple[int, int]]:
    """How often each call was made, and its mean time in ns."""
    said = subprocess.run(
        [program, *words], input=data, capture_output=True, check=True
    ).stdout.decode()
    return {
        name: (int(count), int(spent)) for name, count, spent in map(str.split, said.splitlines())
    }


def instructions(program: str, data: bytes, function: str, *words: str) -> int | None:
    """What the calls of this function cost, with all that they call."""
    with tempfile.TemporaryDirectory() as room:
        out = os.path.join(room, "callgrind")
        counting = [
            "valgrind",
            "--tool=callgrind",
            f"--callgrind-out-file={out}",
            "--collect-atstart=no",
            f"--toggle-collect={function}",
            program,
            *words,
        ]
        try:
            subprocess.run(counting, input=data, capture_output=True, check=True)
        except FileNotFoundError:
            return None
        with open(out, encoding="utf-8") as file:
            found = re.search(r"^(?:summary|totals): (\d+)", file.read(), re.M)
        return int(found[1]) if found else None


def size(archive: str) -> tuple[int, int]:
    """The bytes of the archive, and of these the code."""
    said = subprocess.run(
        ["size", "-t", archive], capture_output=True, text=True, check=True
    ).stdout.splitlines()
    return os.path.getsize(archive), int(said[-1].split()[0])


def show_day(program: str, day: str) -> None:
    data = script(day)
    for name, (count, spent) in called(program, data).items():
        total = instructions(program, data, f"lazbendix_{name}")
        each = "" if not total else f", {total // count:,} instructions"
        print(f"{day}: {name}: {count:,} calls, each {spent:,} ns{each}")


def show_cost(program: str) -> bool:
    """What a step costs more than in Rattle, and whether that is within its bound."""
    data, within = script("dense"), True
    for name, (count, _) in called(program, data, "refused").items():
        total = (
            instructions(program, data, f"lazbendix_{name}", "refused") if name in HOMES else None
        )
        if total:
            # the steps up to the first device that goes out are among the takes
            print(f"a {name} that does nothing: {total // count:,} instructions")
    counts = called(program, data)
    for name, inner in HOMES.items():
        total, home = instructions(program, data, f"lazbendix_{name}"), instructions(
            program, data, inner
        )
        if total and home:
            more = (total - home) / counts[name][0]
            within = within and more <= MOST
            print(f"a {name} costs {more:.1f} instructions more than the live home's own")
    return within


def main() -> None:
    archive = sys.argv[1] if len(sys.argv) > 1 else ARCHIVE
    if not os.path.exists(archive):
        sys.exit("time_library: there is no archive; library/build.sh makes it")
    whole, code = size(archive)
    print(f"archive: {whole:,} bytes, of these {code:,} of code and constants")
    with tempfile.TemporaryDirectory() as room:
        program = os.path.join(room, "library_steps")
        subprocess.run(
            [
                "cc",
                "-std=c11",
                "-O2",
                os.path.join(HERE, "library_steps.c"),
                archive,
                "-o",
                program,
            ],
            check=True,
        )
        for day in DAYS:
            show_day(program, day)
        if not show_cost(program):
            sys.exit(f"time_library: that is more than {MOST}")


if __name__ == "__main__":
    main()
