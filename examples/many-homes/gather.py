#!/usr/bin/env python3
"""Gathers what the homes of a folder have come to, and has every record checked.

    python3 examples/many-homes/gather.py PROGRAM FOLDER

Each HOME.record is judged behind its script by the program's `check`. A home without a record is replayed here to tell why.
Prints a line for each home whose record is not there or does not agree, then the counts of all days, and a sum over all records
in the order of the homes: the same from whatever engine, since a replay is a function of its script. Ends with 1 where a record
does not agree, or is missing though the script can be played.
"""
import argparse
import collections
import glob
import hashlib
import os
import re
import subprocess
import sys

TOTAL = re.compile(rb"total windows (\d+) runs (\d+) committed (\d+) aborted (\d+)\n\Z")
COUNTS = ["windows", "runs", "committed", "aborted"]


def read(path):
    with open(path, "rb") as file:
        return file.read()


def told(program, word, given):
    done = subprocess.run([program, word], input=given, capture_output=True)
    return done.returncode, done.stderr.decode().strip() or done.stdout.decode().strip()


def judged(program, home):
    """How a home ended, and what is told of it."""
    script = read(f"{home}.json")
    if not os.path.exists(f"{home}.record"):
        status, line = told(program, "replay", script)
        return ("refused", line) if status == 1 else ("missing", f"no record, and its replay ends with {status}")
    status, line = told(program, "check", script + b"\n%%\n" + read(f"{home}.record"))
    return ("agree" if line == "agrees" else "differ", line)


def main():
    reader = argparse.ArgumentParser(description=__doc__, formatter_class=argparse.RawDescriptionHelpFormatter)
    reader.add_argument("program", type=os.path.abspath, metavar="PROGRAM")
    reader.add_argument("folder", metavar="FOLDER")
    given = reader.parse_args()
    program, folder = given.program, given.folder
    ends, counts, records = collections.Counter(), collections.Counter(), hashlib.sha256()
    for script in sorted(glob.glob(os.path.join(folder, "*.json"))):
        home = script.removesuffix(".json")
        end, line = judged(program, home)
        ends[end] += 1
        if end == "agree":
            record = read(f"{home}.record")
            records.update(record)
            counts.update(dict(zip(COUNTS, map(int, TOTAL.search(record).groups()))))
        else:
            print(f"{os.path.basename(home)}: {line}")
    print(", ".join(f"{ends[it]} {it}" for it in ["agree", "refused", "differ", "missing"]))
    print(", ".join(f"{counts[it]} {it}" for it in COUNTS))
    print(f"records {records.hexdigest()[:16]}")
    sys.exit(bool(ends["differ"] + ends["missing"]))


if __name__ == "__main__":
    main()
