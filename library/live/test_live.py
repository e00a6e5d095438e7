"""A day of 200 triggers, on devices that answer late, fail at times, and are turned by hand: every window's record agrees."""
import os
import random
import re
import subprocess
import sys
import tempfile
import threading
import time
import unittest
from typing import IO

HERE = os.path.dirname(os.path.abspath(__file__))
ROUTINES = ["wake-up", "leave", "come-home", "lock", "film", "night"]
VALUES = {"lamp": 2, "blinds": 3, "door": 2, "alarm": 2}
TRIGGERS = 200
PAUSES = ["", "", "", "", "wait 30\n", "wait 30\n", "wait 90\n", "wait 300\n"]  # behind a trigger, in ms


def program(name: str, *words: str) -> list[str]:
    return [sys.executable, os.path.join(HERE, name), *words]


def read(path: str) -> str:
    with open(path, encoding="utf-8") as file:
        return file.read()


def turn_by_hand(draw: random.Random, hand: IO[str], is_over: threading.Event) -> None:
    while not is_over.wait(draw.uniform(0, 0.3)):
        name = draw.choice(sorted(VALUES))
        hand.write(f"{name} {draw.randrange(VALUES[name])}\n")
        hand.flush()


def play(folder: str, draw: random.Random) -> str:
    """What the check says of the journal of a day of these triggers."""
    triggers, ports, journal = (os.path.join(folder, name) for name in ("triggers", "ports", "journal"))
    with open(triggers, "w", encoding="utf-8") as file:
        for _ in range(TRIGGERS):
            file.write(f"{draw.choice(ROUTINES)}\n" + draw.choice(PAUSES))
    served = program("devices.py", "--late", "8", "--fails", "0.06")
    with open(ports, "w", encoding="utf-8") as out, subprocess.Popen(served, stdin=subprocess.PIPE, stdout=out, text=True) as devices:
        assert devices.stdin is not None
        while "ready" not in read(ports):
            assert devices.poll() is None
            time.sleep(0.02)
        is_over = threading.Event()
        hand = threading.Thread(target=turn_by_hand, args=(draw, devices.stdin, is_over))
        hand.start()
        hub = program("hub.py", "--devices", ports, "--journal", journal, "--limit", "120", "--gap", "400", triggers)
        subprocess.run(hub, check=True, timeout=300, stdout=subprocess.DEVNULL)
        is_over.set()
        hand.join()
        devices.stdin.close()
    ran = subprocess.run(program("check.py", journal), capture_output=True, text=True)
    return ran.stdout + ran.stderr


class Live(unittest.TestCase):
    def test_a_day_of_200_triggers(self) -> None:
        draw = random.Random(int(os.environ.get("LAZBENDIX_SEED", "1")))
        with tempfile.TemporaryDirectory() as folder:
            said = play(folder, draw)
            record = read(os.path.join(folder, "journal", "1.record"))
        print(said, end="", file=sys.stderr)
        self.assertRegex(said, f"^[0-9]+ windows with {TRIGGERS} runs agree$")
        for line in ("# opened", "# found ", "# lost ", "# fell ", "# rose ", "# undid "):
            self.assertIn(line, record)
        self.assertEqual(len(re.findall(r"^run \d+ \S+ (?:committed|aborted)", record, re.M)), TRIGGERS)


if __name__ == "__main__":
    unittest.main()
