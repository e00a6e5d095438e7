"""The home that the library opens again, from a script and the bytes of the calls in a log, shows what the home of the log shows."""
import os
import random
import sys
import tempfile
import unittest
from typing import Any
from unittest import mock

HERE = os.path.dirname(os.path.abspath(__file__))
sys.path[:0] = [HERE, os.path.join(HERE, "..", "..", ".."), os.path.join(HERE, "..", "..", "..", "python")]

from logged_plays import MODES, Play, answered, drawn_script

from lazbendix import CallLog, Hub, Model, Scheduler, call_log
from lazbendix.logged import CALL_SIZE

DAYS = int(os.environ.get("LAZBENDIX_POINTS", "300")) // 10


def view(hub: Hub) -> Any:
    counts = hub.counts()
    devices = [(answered(hub.stand, device), answered(hub.out, device)) for device in range(counts.devices)]
    entries = [hub.entry(at) for at in range(hub.entry_count())]
    runs = [hub.run_count(number) for number in range(counts.windows)]
    texts = [answered(hub.record, True), hub.head()]
    return [counts, devices, entries, runs, texts, answered(hub.left), answered(lambda: list(hub.final_items()))]


@mock.patch("lazbendix.call_log.sync_file", lambda file: None)
@mock.patch("lazbendix.call_log.sync_folder", lambda path: None)
class Reopened(unittest.TestCase):
    def test_it_shows_what_the_home_of_the_log_shows(self) -> None:
        for seed in range(DAYS):
            draw, mode = random.Random(seed), MODES[seed % len(MODES)]
            script, play = drawn_script(draw, draw.random() < 0.5), Play(draw)
            with tempfile.TemporaryDirectory() as folder, self.subTest(seed=seed, mode=mode):
                with CallLog(os.path.join(folder, "calls")) as log, log.hub(script, *mode) as hub:
                    for _ in range(10):
                        for _ in range(draw.randrange(1, 60)):
                            play.step(hub)
                        log.sync()
                        self.compare(log, hub, script, mode, draw)

    def compare(self, log: CallLog, hub: Hub, script: bytes, mode: tuple[Model, Scheduler], draw: random.Random) -> None:
        with open(log.path, "rb") as file:
            records, _ = call_log.good_records(file.read())
        calls = call_log.calls_of(records)
        again, good = Hub.reopen(script, calls, *mode)
        self.assertEqual(good, len(calls))
        self.assertEqual(view(again), view(hub))
        again.close()
        cut = draw.randrange(len(calls) + 1)
        part, good = Hub.reopen(script, calls[:cut], *mode)
        self.assertEqual(good, cut // CALL_SIZE * CALL_SIZE)
        part.close()


if __name__ == "__main__":
    unittest.main()
