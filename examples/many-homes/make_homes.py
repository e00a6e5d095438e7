#!/usr/bin/env python3
"""Writes the days of many homes, a script each, into a folder: home-0001.json and so on.

    python3 examples/many-homes/make_homes.py FOLDER [--homes N] [--seed S]

By default 1000 homes of the seed 1. The days are drawn (reference/days.py): devices fail and come back, runs are aborted and
undone. Each hundredth script lacks its second half, as where a disk was full, so that it is refused. The same words make the same
scripts.
"""
import argparse
import json
import os
import random
import sys

sys.path.insert(0, os.path.join(os.path.dirname(os.path.abspath(__file__)), "..", ".."))

from reference import days

SPOILED = 100


def script_of(seed, number):
    draw = random.Random(f"{seed} {number}")
    text = json.dumps(days.with_picks(draw, days.day(draw)))
    return text[: len(text) // 2] if number % SPOILED == 0 else text


def main():
    reader = argparse.ArgumentParser(description=__doc__, formatter_class=argparse.RawDescriptionHelpFormatter)
    reader.add_argument("folder", metavar="FOLDER")
    reader.add_argument("--homes", type=int, default=1000, metavar="N")
    reader.add_argument("--seed", type=int, default=1, metavar="S")
    given = reader.parse_args()
    os.makedirs(given.folder, exist_ok=True)
    for number in range(1, given.homes + 1):
        with open(os.path.join(given.folder, f"home-{number:04}.json"), "w", encoding="utf-8") as script:
            script.write(script_of(given.seed, number))


if __name__ == "__main__":
    main()
