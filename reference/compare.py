#!/usr/bin/env python3
"""Compares the built program with this reference, on days that are drawn from a seed.

    python3 -m reference.compare [--days N] [--seed S] [--guards]
                                 [--program COMMAND | --cases FOLDER]

By default 1000 days of the seed 1, and crates/hub_main/out/hub_main, which `rt run` and `rt ci`
build there. With `--guards` they are of version 2, and many commands have guards. Each day is
replayed with its trace, in one mode after another; every fourth script is spoiled first, so that it
is refused as a rule; and the record of every fourth day is checked, half of these with one word
changed. Every second day is kept besides, in a file that is empty, or keeps its first windows, in
some of them with one byte changed. Standard output, standard error, the status and the file must be
the same, byte for byte. Prints the first call that differs, with its script made as short as it
still differs, and ends with 1.

With `--cases` nothing is played: the calls are written as cases into the folder, which is made, but
for those with a file. Before the program is proved and built, `rt try --cases FOLDER` in
crates/hub_main plays them and compares standard output.
"""
from __future__ import annotations

import argparse
import collections
import copy
import itertools
import json
import os
import random
import shlex
import shutil
import subprocess
import sys
import tempfile
from collections.abc import Callable, Iterator, Sequence
from typing import Any

from . import days
from .calls import BytesSink, BytesSource, Call
from .days import Json
from .disks import NAME, BytesDisk

HERE = os.path.dirname(os.path.realpath(__file__))
PROGRAM = os.path.join(HERE, "..", "crates", "hub_main", "out", "hub_main")
MODES = [
    ("ev", "fcfs"),
    ("psv", "fcfs"),
    ("ev", "jit"),
    ("gsv", "fcfs"),
    ("wv", "fcfs"),
    ("ev", "timeline"),
]
MINUTE = 60


Path = tuple[Any, ...]  # names and places on the way to a part of a script
Came = tuple[int | str, bytes, bytes]  # of a call: its status, its output, its line of the fault
Left = tuple[Came, bytes | None]  # and what the file holds afterwards, where there is one


def wanted_left(words: list[str], data: bytes, file: bytes | None) -> Left:
    """What is to come of a call, with a file that holds these bytes, or with none."""
    sink, disk = BytesSink(), BytesDisk(file or b"")
    call = Call(words, BytesSource(data), sink, disk)
    line = f"{call.line}\n".encode() if call.line else b""
    return (call.status, sink.held, line), None if file is None else disk.held


def wanted(words: list[str], data: bytes) -> Came:
    """What is to come of a call without a file."""
    return wanted_left(words, data, None)[0]


def given_left(program: list[str], words: list[str], data: bytes, file: bytes | None) -> Left:
    """What the program makes of it."""
    with tempfile.TemporaryDirectory() as folder:
        path = os.path.join(folder, NAME)
        if file:
            with open(path, "wb") as out:
                out.write(file)
        try:
            done = subprocess.run(
                [*program, *words], input=data, capture_output=True, timeout=MINUTE, cwd=folder
            )
        except subprocess.TimeoutExpired:
            return ("none after a minute", b"", b""), None
        came = done.returncode, done.stdout, done.stderr
        if file is None:
            return came, None
        with open(path, "rb") as stored:
            return came, stored.read()


# A day that differs is made shorter.


def without_run(script: Json, k: int, r: int) -> Json:
    """The script without a run of a window: the numbers of those behind it fall."""
    shorter = copy.deepcopy(script)
    window = shorter["windows"][k]
    del window["runs"][r - 1]
    if "turns" in window:
        window["turns"] = [turn - (turn > r) for turn in window["turns"] if turn != r]
    for run in window["runs"]:
        if run.get("follows") == r:
            del run["follows"]
        elif run.get("follows", 0) > r:
            run["follows"] -= 1
    return shorter


def places_in(value: Any, path: Path = ()) -> Iterator[Path]:
    yield path
    for key, part in value.items() if isinstance(value, dict) else enumerate(value):
        if isinstance(part, (dict, list)):
            yield from places_in(part, (*path, key))


def at(value: Any, path: Path) -> Any:
    for key in path:
        value = value[key]
    return value


def shorter_ones(script: Json) -> Iterator[Json]:
    """Scripts with a part less, the greater parts first. Some of them are no scripts."""
    for k, window in enumerate(script.get("windows", [])):
        for r in range(1, len(window.get("runs", [])) + 1):
            yield without_run(script, k, r)
    for path in places_in(script):
        part = at(script, path)
        if isinstance(part, dict):
            cuts: list[Sequence[Any]] = [(key,) for key in part]
        else:
            sizes = itertools.takewhile(
                lambda size: size > 0, (len(part) >> halvings for halvings in range(20))
            )
            cuts = [
                range(begin, min(begin + size, len(part)))
                for size in sizes
                for begin in range(0, len(part), size)
            ]
        for cut in cuts:
            shorter = copy.deepcopy(script)
            for key in reversed(cut):
                del at(shorter, path)[key]
            yield shorter


def shortened(script: Json, differs: Callable[[bytes], bool]) -> Json:
    """The script with parts taken out for as long as it still differs."""
    while True:
        for shorter in shorter_ones(script):
            if differs(json.dumps(shorter).encode()):
                script = shorter
                break
        else:
            return script


# The calls of a day.


def file_for(draw: random.Random, words: list[str], script: Json) -> bytes:
    """A file that keeps the first windows of the day, if any, and in some cases has one byte
    changed.
    """
    windows = script["windows"]
    first = {**script, "windows": windows[: draw.randint(0, len(windows))]}
    disk = BytesDisk()
    Call(words, BytesSource(json.dumps(first).encode()), BytesSink(), disk)
    file = bytearray(disk.held)
    if file and draw.random() < 0.25:
        file[draw.randrange(len(file))] = draw.choice([0, 1, 2, 255])
    return bytes(file)


def calls_of(
    draw: random.Random, k: int, version: int
) -> Iterator[tuple[list[str], bytes, bytes | None, Json | None]]:
    """The words, the input, the file or none, and the script, where it can be shortened, of each
    call for the day.
    """
    model, scheduler = MODES[k % len(MODES)]
    words = ["replay", "--trace", "--model", model, "--scheduler", scheduler]
    script = days.day_for(draw, scheduler, version)
    if k % 4 == 3:
        yield words, days.spoiled(draw, script).encode(), None, None
        return
    data = json.dumps(script).encode()
    yield words, data, None, script
    if k % 2:
        record = wanted(words, data)[1].decode()
        record = days.damaged(draw, record) if k % 8 == 1 else record
        yield ["check"], data + b"\n%%\n" + record.encode(), None, None
    else:
        words = ["keep", *words[1:]]
        yield words, data, file_for(draw, words, script), script


def show(program: list[str], words: list[str], data: bytes, file: bytes | None) -> None:
    for name, ((status, out, err), left) in [
        ("wanted", wanted_left(words, data, file)),
        ("given", given_left(program, words, data, file)),
    ]:
        print(f"{name}: status {status}")
        print(out.decode(errors="replace"), err.decode(errors="replace"), sep="", end="")
        if left is not None:
            print(left.hex())


def write_cases(folder: str, asked: argparse.Namespace) -> None:
    os.makedirs(folder)
    draw = random.Random(asked.seed)
    for k in range(asked.days):
        for words, data, file, _ in calls_of(draw, k, 2 if asked.guards else 1):
            if file is not None:
                continue
            name = os.path.join(folder, f"{k:05}-{words[0]}")
            for ending, content in [
                ("", data),
                (".args", "\n".join(words).encode()),
                (".stdout", wanted(words, data)[1]),
            ]:
                with open(name + ending, "wb") as out:
                    out.write(content)


def main() -> None:
    options = argparse.ArgumentParser(description=(__doc__ or "").splitlines()[0])
    options.add_argument("--days", type=int, default=1000)
    options.add_argument("--seed", type=int, default=1)
    options.add_argument("--guards", action="store_true")
    options.add_argument("--program", default=shlex.quote(PROGRAM))
    options.add_argument("--cases")
    asked = options.parse_args()
    if asked.cases:
        write_cases(asked.cases, asked)
        return
    first, *rest = shlex.split(asked.program)
    found = shutil.which(first)
    if found is None:
        sys.exit("compare: there is no such program; `rt run` in crates/hub_main builds it")
    program, draw = [os.path.abspath(found), *rest], random.Random(asked.seed)
    statuses = collections.Counter[int | str]()
    for k in range(asked.days):
        for words, data, file, script in calls_of(draw, k, 2 if asked.guards else 1):

            def differs(data: bytes) -> bool:
                return wanted_left(words, data, file) != given_left(program, words, data, file)

            if differs(data):
                if script is not None:
                    data = json.dumps(shortened(script, differs)).encode()
                guards = " with guards" if asked.guards else ""
                print(
                    f"day {k} of the seed {asked.seed}{guards}, {' '.join(words)}:\n{data.decode()}"
                )
                show(program, words, data, file)
                sys.exit(1)
            statuses[wanted_left(words, data, file)[0][0]] += 1
    told = ", ".join(
        f"{count} with status {status}" for status, count in sorted(statuses.items(), key=str)
    )
    print(
        f"{asked.days} days of the seed {asked.seed}{' with guards' if asked.guards else ''}: "
        f"{told}; no difference"
    )


if __name__ == "__main__":
    main()
