#!/usr/bin/env python3
"""Asks of a built program that `keep` writes and syncs its journal as docs/FORMATS.md says, call by
call.

    python3 -m dev.check_syncs [PROGRAM [SCRIPT]]

PROGRAM is crates/hub_main/out/hub_main where it is not given, and SCRIPT examples/valve.json, of
two windows. Wants strace (the Debian package of that name).

No contract sees whether the file of the system is synced: a disk is promised to be as its trait
says, and the file of the system is one of which this is believed. So its calls are watched here.
`keep` is run in an empty folder, and again on what it has left: whole, with the file cut behind the
first window and the gate behind that, and cut before that gate. What is wanted of each run is
reasoned from "The journal" and "A kept day" in docs/FORMATS.md, the script and the bytes that the
file had:

- the folder is synced before anything else, and then the file before its length is asked for or a
  byte is read;
- where fewer windows are kept than the script has, and the next gate is missing or 1, one byte is
  written there and synced;
- then the head is printed;
- of each window that is played the rest of its slot is written, with one byte behind it, and
  synced; then the gate, one byte, is written and synced; only then are the window's lines printed.

Prints a line for each run, with its syncs of the file. Ends with 1 at the first run whose calls are
others, and prints both; with 2 where nothing can be tried.
"""
import json
import os
import re
import shutil
import subprocess
import sys
import tempfile

TOP = os.path.realpath(os.path.join(os.path.dirname(os.path.abspath(__file__)), ".."))
PROGRAM = os.path.join(TOP, "crates", "hub_main", "out", "hub_main")
SCRIPT = os.path.join(TOP, "examples", "valve.json")
NAME = "home.journal"
WATCHED = "openat,close,read,pread64,write,pwrite64,lseek,fsync,fdatasync,fstat,newfstatat,statx"
CALL = re.compile(r'^(?:\d+ +)?(\w+)\((-?\w+)(?:, "([^"]*)")?(.*)\) += (-?\d+)')
MINUTE = 60


def wanted_calls(devices: int, windows: int, found: bytes) -> list[str]:
    """The calls of `keep` for a script with so many devices and windows, on a file with these
    bytes.
    """
    slot = 7 + 5 * devices
    calls = ["sync folder", "sync", "length"]
    if found:
        calls.append("read")
    kept = 0
    while (
        kept < windows
        and found[kept * slot : kept * slot + 1] == b"\x01"
        and len(found) > (kept + 1) * slot
    ):
        kept += 1
    gate = found[kept * slot : kept * slot + 1]
    if kept < windows and gate in (b"", b"\x01"):
        calls += [f"write 1 at {kept * slot}", "sync"]
    calls.append("print")
    for window in range(kept, windows):
        first = window * slot
        calls += [f"write {slot} at {first + 1}", "sync", f"write 1 at {first}", "sync", "print"]
    return calls


class Watch:
    """What the calls of a program do to the journal, its folder and standard output."""

    def __init__(self) -> None:
        self.calls: list[str] = []
        self.journal = self.folder = ""
        self.at = 0

    def note(self, call: str) -> None:
        """Notes the call; of several in a row that print, or that read, the first one."""
        if call not in ("print", "read") or self.calls[-1:] != [call]:
            self.calls.append(call)

    def see(self, name: str, file: str, path: str, rest: str, answer: int) -> None:
        if name == "openat":
            if path == NAME:
                self.journal = str(answer)
            elif path == ".":
                self.folder = str(answer)
        elif name == "close":
            self.journal = "" if file == self.journal else self.journal
            self.folder = "" if file == self.folder else self.folder
        elif file == "1" and name == "write":
            self.note("print")
        elif file == self.folder and name in ("fsync", "fdatasync"):
            self.note("sync folder")
        elif file == self.journal:
            self.of_journal(name, rest, answer)

    def of_journal(self, name: str, rest: str, answer: int) -> None:
        if answer < 0:
            self.note(f"{name} fails")
        elif name in ("fsync", "fdatasync"):
            self.note("sync")
        elif name in ("fstat", "newfstatat", "statx"):
            self.note("length")
        elif name == "lseek":
            self.at = answer
        elif name in ("read", "pread64"):
            self.at += answer if name == "read" else 0
            self.note("read")
        elif name == "pwrite64":
            self.note(f"write {answer} at {rest.rsplit(',', 1)[1].strip()}")
        elif name == "write":
            self.note(f"write {answer} at {self.at}")
            self.at += answer


def made_calls(program: str, script: bytes, folder: str) -> list[str]:
    """The calls that `keep` makes in this folder."""
    told = os.path.join(folder, "told")
    words = ["strace", "-s", "64", "-o", told, "-e", f"trace={WATCHED}", program, "keep"]
    run = subprocess.run(
        words,
        input=script,
        stdout=subprocess.PIPE,
        stderr=subprocess.PIPE,
        cwd=folder,
        timeout=MINUTE,
    )
    if run.returncode != 0:
        sys.exit(f"keep ended with {run.returncode}: {run.stderr.decode(errors='replace').strip()}")
    watch = Watch()
    with open(told, encoding="utf-8", errors="replace") as lines:
        for line in lines:
            if call := CALL.match(line):
                name, file, path, rest, answer = call.groups()
                watch.see(name, file, path or "", rest, int(answer))
    os.remove(told)
    return watch.calls


def main() -> None:
    words = sys.argv[1:]
    program = os.path.realpath(words[0] if words else PROGRAM)
    with open(words[1] if len(words) > 1 else SCRIPT, "rb") as file:
        script = file.read()
    if shutil.which("strace") is None or not os.access(program, os.X_OK):
        print(f"check_syncs: wants strace and {program}", file=sys.stderr)
        sys.exit(2)
    home = json.loads(script)
    devices, windows = len(home["devices"]), len(home["windows"])
    slot = 7 + 5 * devices
    runs = {
        "no file": 0,
        "the whole file": None,
        "cut behind a window": slot + 1,
        "cut before its gate": slot,
    }
    with tempfile.TemporaryDirectory() as folder:
        journal = os.path.join(folder, NAME)
        for name, length in runs.items():
            if length:
                os.truncate(journal, length)
            found = b""
            if os.path.exists(journal):
                with open(journal, "rb") as file:
                    found = file.read()
            wanted = wanted_calls(devices, windows, found)
            made = made_calls(program, script, folder)
            print(f"{name}: bytes {len(found)}, syncs of the file {made.count('sync')}")
            if made != wanted:
                print("wanted: " + ", ".join(wanted), "made:   " + ", ".join(made), sep="\n")
                sys.exit(1)


main()
