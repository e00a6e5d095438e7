"""What outlives the hub's process: triggers, records, and the history. It wants no package."""
import json
import os
import tempfile
import unittest

from lazbendix_hub.history import History, why_text
from lazbendix_hub.ledger import Ledger, Records
from lazbendix_hub.live import Ended


def ended(trigger: int, routine: str, outcome: str, cause: str = "") -> Ended:
    """An end."""
    return Ended(trigger, routine, routine.title(), outcome, cause, "no-answer" if cause else "",
                 "http", "2026-05-04T07:00:00", trigger, 1777878000.0 + trigger, 1.0, 2.0, 30.0,
                 ((0, "lamp to 20"), (25, outcome)))


class Triggers(unittest.TestCase):
    def setUp(self) -> None:
        place = "/dev/shm" if os.path.isdir("/dev/shm") else None  # many syncs
        self.room = tempfile.TemporaryDirectory(dir=place)
        self.path = os.path.join(self.room.name, "triggers.log")

    def tearDown(self) -> None:
        self.room.cleanup()

    def life(self, *names: str) -> Ledger:
        """A life that takes these triggers, and is killed."""
        ledger = Ledger(self.room.name)
        for name in names:
            ledger.accept(name, "http", 5.0)
        ledger.sync()
        ledger.lock.close()
        ledger.file.close()
        return ledger

    def test_what_was_taken_and_not_done_is_found_again(self) -> None:
        self.life("a", "b", "c")
        ledger = Ledger(self.room.name)
        waiting = [(each.number, each.routine) for each in ledger.kept.waiting]
        self.assertEqual(waiting, [(1, "a"), (2, "b"), (3, "c")])
        self.assertEqual(ledger.accept("d", "mqtt", 6.0).number, 4)
        ledger.ended([2, 4])
        ledger.began("2026-05-04T07:00:00")
        ledger.joined(1, 3)
        ledger.told([3], [3])
        ledger.close()
        kept = Ledger(self.room.name).kept
        self.assertEqual([each.number for each in kept.waiting], [1, 3])
        self.assertEqual((kept.window, kept.runs, kept.told, kept.over, kept.last),
                         ("2026-05-04T07:00:00", {1: 3}, {3}, {3}, 4))

    def test_one_hub_a_folder(self) -> None:
        ledger = Ledger(self.room.name)
        self.assertRaises(BlockingIOError, Ledger, self.room.name)
        ledger.close()
        Ledger(self.room.name).close()

    def test_any_end_of_the_file(self) -> None:
        self.life("a", "b")
        with open(self.path, "rb") as file:
            whole = file.read()
        for end in range(len(whole) + 1):  # torn at any byte, and with bytes of another file after
            with open(self.path, "wb") as file:
                file.write(whole[:end] + b"\n\xff\x00[]\n3\n{\"trigger\": {}}\n{}")
            ledger = Ledger(self.room.name)
            lines = whole[:end].split(b"\n")
            taken = []
            for line in lines:
                try:
                    taken += [json.loads(line)["trigger"]]
                except (ValueError, KeyError):
                    pass
            self.assertEqual([each.number for each in ledger.kept.waiting], taken, end)
            ledger.close()


class Pairs(unittest.TestCase):
    def test_a_record_that_is_not_whole_is_dropped(self) -> None:
        with tempfile.TemporaryDirectory() as room:
            records = Records(room)
            records.begin(b'{"windows": []}', "head 1\nhead 2\n")
            records.lost("door")
            records.closed(0, "2026-05-04T07:00:00", ["a"], 1, "run 1 a committed .\nhome x=1\n")
            with open(f"{room}/journal/1.record", "a", encoding="utf-8") as file:
                file.write("run 1 b comm")
            again = Records(room)
            self.assertTrue(again.go_on())
            self.assertTrue(again.has("2026-05-04T07:00:00"))
            self.assertEqual((again.runs, again.committed), (1, 1))
            with open(f"{room}/journal/1.record", encoding="utf-8") as file:
                self.assertEqual(file.read(), "head 1\nhead 2\n# opened\n# lost door\n"
                                              "run 1 a committed .\nhome x=1\n")


class Ends(unittest.TestCase):
    def test_the_history(self) -> None:
        with tempfile.TemporaryDirectory() as room:
            history = History(room)
            history.add(ended(1, "night", "committed"))
            history.add(ended(2, "leave", "aborted", 'The "big" lamp did not answer (step 1)'))
            for rows, number in ((history.find(routine="night"), [1]),
                                 (history.find(cause="no-answer"), [2]),
                                 (history.find(device='The "big" lamp'), [2]),
                                 (history.find(), [2, 1]), (history.find(day="2001-01-01"), [])):
                self.assertEqual([row["trigger"] for row in rows], number)
            last = history.get(None)
            assert last is not None
            self.assertIn('taken back: The "big" lamp did not answer (step 1)', why_text(last))
            history.close()
            with open(f"{room}/history.sqlite", "wb") as file:
                file.write(b"no database, but as long as the head of one" * 9)
            again = History(room)  # it is only derived
            self.assertIsNone(again.get(None))
            again.close()


if __name__ == "__main__":
    unittest.main()
