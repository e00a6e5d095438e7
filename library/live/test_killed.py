"""A hub that is killed again and again, on devices that outlive it: nothing that it reported is lost, and nothing runs twice.

Every second kill is a power cut: of the log's bytes behind the last sync a part is lost, and a part of what is left is spoilt.
LAZBENDIX_KILLS says how often it is killed, LAZBENDIX_SEED draws other kills, and LAZBENDIX_WRONG=1 breaks both rules: of eight
syncs seven are left out.
"""
import collections
import contextlib
import functools
import os
import random
import re
import resource
import socket
import struct
import subprocess
import sys
import tempfile
import time
import unittest
from typing import IO, Any

HERE = os.path.dirname(os.path.abspath(__file__))
ROOT = os.path.join(HERE, "..", "..")
sys.path[:0] = [HERE, ROOT]

from check import check_day
from reference.script import read_script
from test_live import ROUTINES, program, read

KILLS = int(os.environ.get("LAZBENDIX_KILLS", "12"))
WRONG = os.environ.get("LAZBENDIX_WRONG", "")
LIFE = 0.5  # s: the longest time between a start and the kill
LIMIT = 120  # ms
RECORDS = 600  # of a log, before it is begun anew
# The hub, which notes in a file how much of which log was synced.
KILLED = f"""
import itertools, mmap, os, runpy, struct, sys, time
sys.path[:0] = [{HERE!r}, {os.path.join(ROOT, "python")!r}]
from lazbendix import call_log, logged_hubs
noted, wrong = sys.argv.pop(1), sys.argv.pop(1)
with open(noted, "r+b") as file:
    marks = mmap.mmap(file.fileno(), 16)
syncs = itertools.count()
def sync_file(file):
    if not wrong or next(syncs) % 8 == 0:
        time.sleep(0.004)  # the time in which a power cut finds bytes that are written and not synced
        marks[:16] = struct.pack("<QQ", os.fstat(file).st_ino, os.fstat(file).st_size)
call_log.sync_file = sync_file
sys.argv[0] = {os.path.join(HERE, "hub.py")!r}
runpy.run_path(sys.argv[0], run_name="__main__")
"""


def cut_power(folder: str, draw: random.Random) -> bool:
    """Takes away or spoils something of what was not synced; whether there was any."""
    path = os.path.join(folder, "journal", "calls")
    with open(os.path.join(folder, "synced"), "rb") as file:
        inode, synced = struct.unpack("<QQ", file.read(16))
    if not os.path.exists(path) or os.stat(path).st_ino != inode or os.path.getsize(path) <= synced:
        return False
    left = draw.randint(synced, os.path.getsize(path))
    os.truncate(path, left)
    if left > synced and draw.random() < 0.5:
        with open(path, "r+b") as log:
            log.seek(draw.randrange(synced, left))
            log.write(draw.randbytes(1))
    return True


def value_of(port: int) -> int:
    """Where the device stands; it is asked until it answers."""
    for _ in range(50):
        with socket.create_connection(("127.0.0.1", port)) as wire:
            wire.settimeout(0.3)
            wire.sendall(b"1 sense\n")
            try:
                words = wire.recv(100).split()
            except TimeoutError:
                continue
            if words[1:2] == [b"found"]:
                return int(words[2])
    raise AssertionError("the device does not answer")


class Lives:
    """The lives of a hub in a folder, with devices that go on."""

    def __init__(self, folder: str, draw: random.Random) -> None:
        self.folder, self.draw, self.cuts = folder, draw, 0
        self.ports, self.reports = os.path.join(folder, "ports"), os.path.join(folder, "reports")
        with open(os.path.join(folder, "synced"), "wb") as file:
            file.write(bytes(16))
        with open(self.ports, "w", encoding="utf-8") as out:
            words = program("devices.py", "--late", "30", "--fails", "0.03", "--seed", str(draw.randrange(1000)))
            self.devices = subprocess.Popen(words, stdin=subprocess.PIPE, stdout=out, text=True)
        while "ready" not in read(self.ports):
            time.sleep(0.02)

    def start(self, room: int | None = None) -> "subprocess.Popen[str]":
        """A new life, whose files may not become longer than `room`. A report that a kill has torn was not made."""
        if os.path.exists(self.reports):
            os.truncate(self.reports, read(self.reports).rfind("\n") + 1)
        words = [sys.executable, "-c", KILLED, os.path.join(self.folder, "synced"), WRONG, "--devices", self.ports]
        words += ["--journal", os.path.join(self.folder, "journal"), "--limit", str(LIMIT), "--gap", "200"]
        words += ["--records", str(RECORDS), "--not-twice", "door"]
        with open(self.reports, "a", encoding="utf-8") as out:
            limit = None if room is None else functools.partial(resource.setrlimit, resource.RLIMIT_FSIZE, (room, room))
            return subprocess.Popen(words, stdin=subprocess.PIPE, stdout=out, stderr=subprocess.PIPE, text=True, preexec_fn=limit)

    def fill(self, room: int) -> str:
        """A life on a disk that becomes full. What it said as it ended."""
        hub = self.start(room)
        assert hub.stdin is not None and hub.stderr is not None
        while hub.poll() is None:
            self.send(hub.stdin, 1)
            time.sleep(0.02)
        with hub.stderr, contextlib.suppress(BrokenPipeError):
            said = hub.stderr.read()
            hub.stdin.close()
        return said

    def live(self, number: int) -> None:
        """A life with some triggers, and its end by a kill."""
        before, hub = os.path.getsize(self.reports) if os.path.exists(self.reports) else 0, self.start()
        assert hub.stdin is not None and hub.stderr is not None
        if self.draw.random() < 0.9:  # else it may be killed while it starts
            while hub.poll() is None and os.path.getsize(self.reports) == before:
                time.sleep(0.005)
        until = time.monotonic() + self.draw.uniform(0, LIFE)
        while time.monotonic() < until and hub.poll() is None:
            self.send(hub.stdin, self.draw.randrange(1, 3))
            time.sleep(min(self.draw.uniform(0, 0.1), max(0, until - time.monotonic())))
        hub.kill()
        hub.wait()
        with hub.stderr, contextlib.suppress(BrokenPipeError):
            said = hub.stderr.read()
            hub.stdin.close()
        if said:
            raise AssertionError(f"life {number}: {said}")
        if number % 2:
            self.cuts += cut_power(self.folder, self.draw)

    def send(self, lines: IO[str], count: int) -> None:
        try:
            lines.write("".join(f"{self.draw.choice(ROUTINES)}\n" for _ in range(count)))
            lines.flush()
        except BrokenPipeError:
            pass

    def end(self) -> dict[str, int]:
        """The last life ends what is left to do. Where the devices stand then."""
        _, said = self.start().communicate(timeout=120)
        if said:
            raise AssertionError(said)
        ports = dict(line.split() for line in read(self.ports).splitlines() if line.count(" ") == 1)
        return {name: value_of(int(port)) for name, port in ports.items()}

    def close(self) -> None:
        assert self.devices.stdin is not None
        self.devices.stdin.close()
        self.devices.wait()


def days(journal: str) -> list[int]:
    """The days that have windows."""
    return sorted(int(name[:-5]) for name in os.listdir(journal) if name.endswith(".json"))


def outcomes(journal: str) -> tuple[dict[str, str], list[str]]:
    """By trigger how its run ended by the record, and the triggers of all runs."""
    ends, every = {}, []
    for day in days(journal):
        triggers: list[str] = []
        for line in read(os.path.join(journal, f"{day}.record")).splitlines():
            if line.startswith("# triggers"):
                triggers = line.split()[2:]
                every += triggers
            elif run := re.match(r"run (\d+) \S+ (committed|aborted)", line):
                ends[triggers[int(run[1]) - 1]] = run[2]
    return ends, every


def last_stands(journal: str) -> tuple[Any, list[Any]]:
    """The script, and how the home stands after the last day; raises where a record does not agree."""
    stands: list[Any] = []
    for day in days(journal):
        with open(os.path.join(journal, f"{day}.json"), "rb") as file:
            script = read_script(file.read())
        stands, _, _ = check_day(script, read(os.path.join(journal, f"{day}.record")), stands)
    return script, stands


class Killed(unittest.TestCase):
    def judge(self, folder: str, devices: dict[str, int]) -> str:
        journal, reports = os.path.join(folder, "journal"), read(os.path.join(folder, "reports")).splitlines()
        script, stands = last_stands(journal)
        ends, every = outcomes(journal)
        self.assertEqual(len(every), len(set(every)), "a trigger ran twice")
        told = collections.Counter(line.split()[-1] for line in reports)
        for line in reports:
            trigger, what = line.split()[0], line.split()[-1]
            if trigger == "started":
                continue
            if trigger not in ends:
                self.fail(f"`{line}` was reported, and its run is in no record")
            if what != "taken":
                self.assertEqual(what, ends[trigger], f"`{line}` was reported, and its record says something else")
        for device, stand in zip(script.devices, stands):
            if stand.up:
                self.assertEqual(devices[device.name], stand.value, f"{device.name} stands elsewhere than the record has it")
        again = [int(line.split()[5]) for line in reports if line.startswith("started in a window")]
        return (f"{len(again)} starts in mid-window, with {sum(again)} calls out; {len(every)} runs, "
                f"{list(ends.values()).count('committed')} committed; reported: {told['taken']} taken, {told['committed']} committed")

    def test_a_hub_that_is_killed_loses_nothing_that_it_reported(self) -> None:
        draw = random.Random(int(os.environ.get("LAZBENDIX_SEED", "1")))
        room = "/dev/shm" if os.access("/dev/shm", os.W_OK) else None
        with tempfile.TemporaryDirectory(dir=room) as folder:
            lives = Lives(folder, draw)
            try:
                for number in range(KILLS):
                    lives.live(number)
                devices = lives.end()
            finally:
                lives.close()
            said = self.judge(folder, devices)
            self.assertTrue(KILLS < 12 or "started in a window" in read(os.path.join(folder, "reports")))
        print(f"{KILLS} kills, {lives.cuts} of them cut off something; {said}", file=sys.stderr)

    def test_a_hub_whose_disk_is_full_stops_and_goes_on_when_there_is_room(self) -> None:
        with tempfile.TemporaryDirectory() as folder:
            lives = Lives(folder, random.Random(1))
            try:
                for room in (3000, 8000):
                    self.assertRegex(lives.fill(room), "FAILED|File too large")
                devices = lives.end()
            finally:
                lives.close()
            self.assertIn("started in a window", read(os.path.join(folder, "reports")))
            self.judge(folder, devices)


if __name__ == "__main__":
    unittest.main()
