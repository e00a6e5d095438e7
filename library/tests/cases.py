#!/usr/bin/env python3
"""Writes the days that the library's tests play, with the records that the reference makes of them.

    python3 library/tests/cases.py [--days N] [--seed S] [--coming] > CASES

The days are the repository's examples and N drawn ones (500 by default), each in all six modes; with --coming drawn ones alone,
in which the runs of a window come one after another, while those before are under way. A case is words and numbers between
blanks; the texts stand behind a line feed, in the bytes that are counted before it:

    case NAME MODEL SCHEDULER       the numbers of lazbendix.h
    devices D                       for each: the numbers of its `down`, first how many
    routines R                      for each: the ms that its commands take, first how many
    windows W                       for each: its time, seed, rounds of probes, number of runs, the runs' routines, number of
                                    runs, the runs that they follow, 0 for none, number of turns, turns
    script BYTES
    home BYTES                      the script without its windows
    record BYTES                    of `replay --trace`
"""
import argparse
import glob
import json
import os
import random
import sys

HERE = os.path.dirname(os.path.abspath(__file__))
ROOT = os.path.join(HERE, "..", "..")
sys.path.insert(0, ROOT)

from reference import days
from reference.calls import BytesSink, BytesSource, Call
from reference.record import time_text

MODELS = {"ev": 0, "psv": 1, "gsv": 2, "wv": 3}
SCHEDULERS = {"fcfs": 0, "jit": 1, "timeline": 2}
MODES = [("ev", "fcfs"), ("ev", "jit"), ("ev", "timeline"), ("psv", "fcfs"), ("gsv", "fcfs"), ("wv", "fcfs")]


def scripts(count, seed):
    """The names and the bytes of the days."""
    for path in sorted(glob.glob(os.path.join(ROOT, "examples", "*.json"))):
        with open(path, "rb") as file:
            yield os.path.splitext(os.path.basename(path))[0], file.read()
    draw = random.Random(seed)
    for number in range(1, count + 1):
        yield f"drawn-{number}", json.dumps(days.with_picks(draw, days.day(draw))).encode()


def coming(count, seed):
    """The names and the bytes of the days whose runs come one after another."""
    draw = random.Random(seed)
    for number in range(1, count + 1):
        yield f"coming-{number}", json.dumps(coming_day(draw)).encode()


def coming_day(draw):
    """A day, of small runs or of any, many with guards, in which runs come while those before are under way."""
    made = days.gap_day(draw, draw.randint(1, 2)) if draw.random() < 0.4 else days.with_picks(draw, days.day(draw))
    if draw.random() < 0.4:
        made = days.guarded(draw, made)
    for window in made["windows"]:
        count = draw.choice([1, 2, 3, 4, 5, 6, 8, 12]) if draw.random() < 0.98 else draw.randint(13, 64)
        window["runs"] = [days.run(draw, made["routines"], before) for before in range(count)]
        window["turns"] = coming_turns(draw, count)
    return made


def coming_turns(draw, count):
    """Turns of the detector and of the runs that have come, some at a time, as a rule with their first turns soon."""
    turns, come = [], 0
    while come < count and len(turns) < 3000:
        before, come = come, min(count, come + draw.choice([1, 1, 1, 2, 4]))
        turns += [run for run in range(before + 1, come + 1) for _ in range(draw.choice([0, 1, 2, 3]))]
        turns += [draw.randint(0, come) for _ in range(draw.choice([0, 1, 3, 10, 10, 40]))]
    return turns


def counted(numbers):
    return [len(numbers), *numbers]


def home(data):
    """The bytes of the script without its windows."""
    return json.dumps({**json.loads(data), "windows": []}).encode()


def case(name, data, model, scheduler):
    """The case of a day in this mode."""
    sink = BytesSink()
    call = Call(["replay", "--trace", "--model", model, "--scheduler", scheduler], BytesSource(data), sink)
    if call.status:
        raise SystemExit(f"{name}: {call.line}")
    script = call.script
    lines = [["case", name, MODELS[model], SCHEDULERS[scheduler]], ["devices", len(script.devices)]]
    lines += [counted([call for pair in device.downs for call in pair]) for device in script.devices]
    lines.append(["routines", len(script.routines)])
    lines += [counted([command.takes for command in routine.commands]) for routine in script.routines]
    lines.append(["windows", len(script.windows)])
    for window in script.windows:
        runs = [counted([run.routine for run in window.runs]), counted([run.follows or 0 for run in window.runs])]
        lines.append([time_text(window.at), window.seed, window.probes, *runs[0], *runs[1], *counted(window.turns)])
    text = "".join(" ".join(map(str, line)) + "\n" for line in lines).encode()
    texts = ((b"script", data), (b"home", home(data)), (b"record", sink.held))
    return text + b"".join(b"%s %d\n%s\n" % (word, len(part), part) for word, part in texts)


def main():
    options = argparse.ArgumentParser(description=__doc__.splitlines()[0])
    options.add_argument("--days", type=int, default=500)
    options.add_argument("--seed", type=int, default=1)
    options.add_argument("--coming", action="store_true")
    asked = options.parse_args()
    for name, data in (coming if asked.coming else scripts)(asked.days, asked.seed):
        for model, scheduler in MODES:
            sys.stdout.buffer.write(case(name, data, model, scheduler))


if __name__ == "__main__":
    main()
