"""Plays drawn days on two machines, and compares what they write, byte for byte.

    python3 -m release.drawn_days N ARCHIVE OTHER [--seed S] [--jobs J]

ARCHIVE is an unpacked archive for this machine, OTHER one for aarch64, whose programs
qemu-aarch64-static runs. Each of N days is replayed by both static programs, with a trace, in one
of the six modes after the other; one in twenty is worked by OTHER's `run` too, with threads, and
ARCHIVE's `check` judges the record. The library plays the same days in all six modes:
library/tests/plays.c, linked with OTHER's, compares each record with that of the reference.
"""
import argparse
import json
import os
import random
import subprocess
import sys
import tempfile
from concurrent.futures import ThreadPoolExecutor

from reference import days
from release.machines import ROOT

MODES = [
    ("ev", "fcfs"),
    ("ev", "jit"),
    ("ev", "timeline"),
    ("psv", "fcfs"),
    ("gsv", "fcfs"),
    ("wv", "fcfs"),
]
QEMU = "qemu-aarch64-static"


def played(words: list[str], script: bytes) -> tuple[int, bytes, bytes]:
    ran = subprocess.run(words, input=script, capture_output=True)
    return ran.returncode, ran.stdout, ran.stderr


def drawn(count: int, seed: int) -> list[bytes]:
    """The scripts of the days."""
    draw = random.Random(seed)
    return [json.dumps(days.with_picks(draw, days.day(draw))).encode() for _ in range(count)]


def main() -> None:
    words = argparse.ArgumentParser(
        description=__doc__, formatter_class=argparse.RawTextHelpFormatter
    )
    words.add_argument("count", type=int)
    words.add_argument("archive")
    words.add_argument("other")
    words.add_argument("--seed", type=int, default=1)
    words.add_argument("--jobs", type=int, default=len(os.sched_getaffinity(0)))
    given = words.parse_args()
    one, other = f"{given.archive}/bin/hub_main", [QEMU, f"{given.other}/bin/hub_main"]

    def differs(numbered: tuple[int, bytes]) -> str | None:
        number, script = numbered
        model, scheduler = MODES[number % len(MODES)]
        call = ["replay", "--trace", "--model", model, "--scheduler", scheduler]
        if played([one, *call], script) != played([*other, *call], script):
            return f"day {number} of seed {given.seed}, {model} {scheduler}: the records differ"
        if number % 20 == 0:
            status, record, _ = played([*other, "run"], script)
            judged = played([one, "check"], script + b"\n%%\n" + record)
            if status or judged[:2] != (0, b"agrees\n"):
                return f"day {number} of seed {given.seed}: run ended with {status}, {judged}"
        return None

    scripts = list(enumerate(drawn(given.count, given.seed)))
    with ThreadPoolExecutor(given.jobs) as pool:
        found = [it for it in pool.map(differs, scripts) if it]
    print("\n".join(found) or f"{given.count} days, each the same bytes by both programs")
    with tempfile.TemporaryDirectory() as room:
        built = f"{room}/plays"
        source, archive = f"{ROOT}/library/tests/plays.c", f"{given.other}/lib/liblazbendix.a"
        subprocess.run(
            ["aarch64-linux-gnu-gcc", "-static", "-O1", "-std=c11", source, archive, "-o", built],
            check=True,
        )
        cases = [
            sys.executable,
            f"{ROOT}/library/tests/cases.py",
            "--days",
            str(given.count),
            "--seed",
            str(given.seed),
        ]
        with subprocess.Popen(cases, stdout=subprocess.PIPE) as made:
            ran = subprocess.run([QEMU, built], stdin=made.stdout, capture_output=True, text=True)
    print(ran.stdout.strip(), ran.stderr.strip())
    sys.exit(1 if found or ran.returncode else 0)


if __name__ == "__main__":
    main()
