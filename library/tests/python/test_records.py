"""Each day's record is that of the reference, byte for byte, also where runs join at drawn moments. LAZBENDIX_DAYS says how many
drawn days there are of each kind."""
import os
import random
import sys
import unittest
from typing import Iterator

HERE = os.path.dirname(os.path.abspath(__file__))
sys.path[:0] = [HERE, os.path.join(HERE, ".."), os.path.join(HERE, "..", "..", "..", "python")]

import cases
from reference.calls import BytesSink, BytesSource, Call
from players import play

from lazbendix import Model, Scheduler

DAYS = int(os.environ.get("LAZBENDIX_DAYS", "60"))


class Records(unittest.TestCase):
    maxDiff = None

    def test_each_record_is_that_of_the_reference(self) -> None:
        self.compare(cases.scripts(DAYS, 2), None)

    def test_runs_that_join_leave_the_same_record(self) -> None:
        self.compare(cases.coming(DAYS, 3), random.Random(4))

    def compare(self, days: Iterator[tuple[str, bytes]], joins: random.Random | None) -> None:
        played = 0
        for name, data in days:
            for model, scheduler in cases.MODES:
                sink = BytesSink()
                call = Call(["replay", "--trace", "--model", model, "--scheduler", scheduler], BytesSource(data), sink)
                with self.subTest(day=name, model=model, scheduler=scheduler):
                    mode = Model(cases.MODELS[model]), Scheduler(cases.SCHEDULERS[scheduler])
                    made = play(call.script, cases.home(data) if joins else data, *mode, joins)
                    self.assertEqual(made, sink.held.decode())
                played += 1
        print(f"{played} days", file=sys.stderr)


if __name__ == "__main__":
    unittest.main()
