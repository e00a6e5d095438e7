"""A home is made again of its log: at random points it shows the same, and answers the same from then on."""
import os
import sys
import tempfile
import unittest
from unittest import mock

HERE = os.path.dirname(os.path.abspath(__file__))
sys.path[:0] = [HERE, os.path.join(HERE, "..", "..", ".."), os.path.join(HERE, "..", "..", "..", "python")]

from logged_plays import MODES, points, view

POINTS = int(os.environ.get("LAZBENDIX_POINTS", "300"))
SEED = int(os.environ.get("LAZBENDIX_SEED", "1"))
A_DAY, AHEAD = 10, 25


@mock.patch("lazbendix.call_log.sync_file", lambda file: None)  # no power is cut here
@mock.patch("lazbendix.call_log.sync_folder", lambda path: None)
class Rebuilt(unittest.TestCase):
    maxDiff = None

    def test_at_random_points_the_rebuilt_home_goes_on_alike(self) -> None:
        made = windows = joined = 0
        for number in range(max(1, POINTS // A_DAY)):
            mode = MODES[number % len(MODES)]
            with tempfile.TemporaryDirectory() as folder, self.subTest(mode=mode, seed=SEED + number):
                for hub, again, play in points(folder, mode, SEED + number, A_DAY):
                    self.assertEqual(view(again), view(hub))
                    if hub.opened is None:
                        self.assertEqual(hub.down, {d for d in range(hub.counts().devices) if not hub.stand(d).up})
                    other = play.twin()
                    for _ in range(AHEAD):
                        self.assertEqual(other.step(again), play.step(hub))
                    self.assertEqual(view(again), view(hub))
                    reports = hub.let_out().reports
                    once_more = again.let_out().reports  # also those of which no record says that they were handed on
                    self.assertEqual(once_more[len(once_more) - len(reports):], reports)
                    made += 1
                windows, joined = windows + play.played, joined + play.joined
        print(f"{made} points, {windows} windows closed, {joined} runs joined", file=sys.stderr)


if __name__ == "__main__":
    unittest.main()
