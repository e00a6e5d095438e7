"""What the package adds to the library: errors by their status, types, and the end of a hub."""
import ctypes
import os
import sys
import threading
import unittest

HERE = os.path.dirname(os.path.abspath(__file__))
sys.path.insert(0, os.path.join(HERE, "..", "..", "..", "python"))

from lazbendix import (Answer, Counts, Dead, EntryKind, Found, Go, Hub, Item, ItemKind, Left, Model, Moved, NoRun, Over, Refused,
                       Scheduler, ScriptRefused, Stand, Status, Task, Waits, Why, Worked, _calls, library_version)
from lazbendix.told import FaultKind, Part

EXAMPLE = os.path.join(HERE, "..", "..", "..", "examples", "leaving.json")
LEAVE, READ = 0, 1
LAMP, HEAT, WINDOW, ALARM = range(4)
SHUT, OPEN = 0, 1


def leaving() -> bytes:
    with open(EXAMPLE, "rb") as file:
        return file.read()


class Hubs(unittest.TestCase):
    def setUp(self) -> None:
        self.hub = Hub(leaving())
        self.addCleanup(self.hub.close)

    def refuses(self, status: Status, call: str, *words: object) -> None:
        with self.assertRaises(Refused) as refused:
            getattr(self.hub, call)(*words)
        self.assertIs(refused.exception.status, status)

    def play(self, window: int, answers: dict[int, int]) -> None:
        """Every device works; a sense finds what is said of its device."""
        self.hub.window(window)
        self.play_on(window, answers)

    def play_on(self, window: int, answers: dict[int, int]) -> None:
        """The same, in the window that is open."""
        self.step(window, answers)
        self.hub.close_window()

    def step(self, window: int, answers: dict[int, int]) -> None:
        while self.hub.left() is not None:
            for run in range(1, self.hub.run_count(window) + 1):
                turn = self.hub.take(run, 0)
                if isinstance(turn, Go):
                    told: Answer = Found(answers[turn.device]) if turn.task is Task.SENSE else Worked()
                    self.hub.give(turn.device, turn.ticket, told, 0)

    def test_the_structures_are_as_large_as_in_c(self) -> None:
        sizes = {"Handle": 16, "ToldFault": 40, "ToldEntry": 56, "ToldMade": 176, "ToldTurn": 272, "ToldLeft": 8, "ToldStand": 8,
                 "ToldCounts": 24, "ToldItem": 16}
        for name, size in sizes.items():
            self.assertEqual(ctypes.sizeof(getattr(_calls, name)), size)

    def test_names_and_numbers(self) -> None:
        self.assertEqual(self.hub.counts(), Counts(4, 2, 1))
        self.assertEqual([self.hub.device_name(d) for d in range(5)], ["lamp", "heat", "window", "alarm", ""])
        self.assertEqual([self.hub.routine_name(r) for r in range(3)], ["leave", "read", ""])
        self.assertEqual(self.hub.value_name(WINDOW, OPEN), "open")
        self.assertEqual(self.hub.value_name(HEAT, 21), "")
        self.assertEqual(self.hub.stand(HEAT), Stand(21, True))
        self.assertEqual((self.hub.run_count(0), self.hub.run_count(1)), (2, 0))

    def test_a_script_is_refused_with_its_fault(self) -> None:
        with self.assertRaises(ScriptRefused) as refused:
            Hub('{"safehome": 1, "devices": [{"name": "Lamp", "low": 0, "high": 1, "start": 0}], "routines": [], "windows": []}')
        fault = refused.exception.fault
        self.assertEqual((fault.kind, fault.part, fault.outer), (FaultKind.BAD_NAME, Part.DEVICE, 1))
        with self.assertRaises(Refused) as no_mode:
            Hub(leaving(), Model.GLOBAL, Scheduler.JIT)
        self.assertIs(no_mode.exception.status, Status.MODE)

    def test_a_window_of_the_script(self) -> None:
        self.play(0, {WINDOW: OPEN})
        kinds = [entry.kind for entry in self.hub.entries()]
        self.assertEqual((kinds.count(EntryKind.COMMITTED), kinds.count(EntryKind.ABORTED)), (1, 1))
        lines = self.hub.record().splitlines()
        self.assertEqual(lines[1], "run 1 leave aborted refuted 3 found open")
        self.assertTrue(lines[2].startswith("run 2 read committed"))
        self.assertEqual(self.hub.entry_text(0).rstrip("\n"), "# arrived 1 at 0")
        self.assertEqual(self.hub.head(), "safehome day\nmodel ev fcfs\n")
        self.assertEqual(self.hub.entry(0)[1], 1)

    def test_the_steps_of_a_run(self) -> None:
        self.hub.window(0)
        self.assertEqual(self.hub.left(), Left(1, None))
        self.assertEqual(self.hub.take(3, 0), NoRun())
        arrived = self.hub.take(1, 5)
        assert isinstance(arrived, Moved)
        self.assertEqual((arrived.made[0].kind, arrived.made[0].moment), (EntryKind.ARRIVED, 5))
        self.assertIsInstance(self.hub.take(1, 5), Moved)
        go = self.hub.take(1, 5)
        self.assertEqual(go, Go(HEAT, 1, 1, Task.DRIVE, 15, 21))
        self.assertEqual(self.hub.take(1, 5), Waits(Why.BUSY, HEAT, 0))
        self.refuses(Status.NOT_OUT, "give", HEAT, 2, Worked(), 5)
        self.refuses(Status.WRONG, "give", HEAT, 1, Found(15), 5)
        made = self.hub.give(HEAT, 1, Dead(), 5)
        self.assertEqual([entry.kind for entry in made], [EntryKind.FELL, EntryKind.DID, EntryKind.DOOMED])
        self.assertIsInstance(self.hub.take(1, 5), Over)
        self.refuses(Status.NOT_QUIET, "close_window")
        self.refuses(Status.NO_PROBE, "probe", LAMP)

    def test_a_window_of_the_moment(self) -> None:
        self.hub.restand(WINDOW, SHUT)
        number = self.hub.begin_window("2021-04-27T08:10:00")
        self.assertEqual(self.hub.add_run(LEAVE), 1)
        self.assertEqual(self.hub.add_run(READ, follows=1), 2)
        self.play(number, {WINDOW: SHUT})
        self.assertIn("\norder 1 2\nhome lamp=on heat=15 window=shut alarm=on\n", self.hub.record())
        self.refuses(Status.BAD_TIME, "begin_window", "2021-04-27T08:10:00")
        self.refuses(Status.NO_WINDOW, "add_run", LEAVE)
        self.refuses(Status.NO_VALUE, "restand", HEAT, 31)

    def test_runs_that_join(self) -> None:
        self.hub.restand(WINDOW, SHUT)
        number = self.hub.begin_window("2021-04-27T08:10:00", probes=100)
        self.hub.window(number)
        self.assertIsNone(self.hub.left())
        self.refuses(Status.BAD_FOLLOW, "add_run", READ, 1)
        self.assertEqual(self.hub.add_run(LEAVE), 1)
        while not isinstance(go := self.hub.take(1, 0), Go):
            pass
        self.assertEqual(self.hub.add_run(LEAVE), 2)
        while not isinstance(self.hub.take(2, 0), Waits):
            pass
        self.assertEqual(self.hub.blocked_runs(), 2)
        self.assertEqual(self.hub.add_run(READ, follows=1), 3)
        self.assertEqual((self.hub.blocked_runs(), self.hub.out(HEAT), self.hub.run_count(number)), (0, go, 3))
        self.hub.give(HEAT, go.ticket, Worked(), 0)
        self.step(number, {WINDOW: SHUT})
        self.assertEqual([self.hub.add_run(READ, follows=1) for _ in range(4, 65)], list(range(4, 65)))
        self.refuses(Status.TOO_MANY, "add_run", READ, 65)
        self.play_on(number, {WINDOW: SHUT})
        self.assertEqual(self.hub.record().count(" committed"), 64)

    def test_a_device_that_is_lost(self) -> None:
        self.refuses(Status.ABSENT, "lose", 4)
        for _ in range(2):
            self.hub.lose(HEAT)
            self.assertEqual(self.hub.stand(HEAT), Stand(21, False))
        number = self.hub.begin_window("2021-04-27T08:10:00", probes=1)
        self.hub.add_run(LEAVE)
        self.hub.window(number)
        self.refuses(Status.IN_WINDOW, "lose", HEAT)
        while isinstance(turn := self.hub.take(1, 0), Moved):
            pass
        assert isinstance(turn, Over)
        self.assertIs(turn.end.kind, EntryKind.ABORTED)
        go = self.hub.probe(HEAT)
        self.assertEqual((go.task, go.value), (Task.RESTORE, 21))
        self.assertEqual([entry.kind for entry in self.hub.give(HEAT, go.ticket, Worked(), 0)], [EntryKind.ROSE])

    def test_what_is_asked_of_a_window(self) -> None:
        for call, words in [("blocked_runs", ()), ("out", (HEAT,)), ("sealed", ()), ("final_item", (0,))]:
            self.refuses(Status.NO_WINDOW, call, *words)
        self.hub.restand(WINDOW, SHUT)
        number = self.hub.begin_window("2021-04-27T08:10:00")
        for _ in range(2):
            self.hub.add_run(LEAVE)
        self.hub.window(number)
        while not isinstance(go := self.hub.take(1, 0), Go):
            pass
        self.assertEqual(self.hub.out(HEAT), go)
        self.refuses(Status.NOT_OUT, "out", LAMP)
        self.refuses(Status.ABSENT, "out", 4)
        while not isinstance(self.hub.take(2, 0), Waits):
            pass
        self.assertEqual(self.hub.blocked_runs(), 2)
        self.assertEqual([self.hub.is_blocked(run) for run in (1, 2)], [False, True])
        self.assertEqual((self.hub.sealed(), list(self.hub.final_items())), (0, []))
        self.refuses(Status.ABSENT, "final_item", 0)
        self.hub.give(HEAT, go.ticket, Dead(), 0)
        self.refuses(Status.NOT_OUT, "out", HEAT)
        for run in (1, 2):
            while not isinstance(self.hub.take(run, 0), Over):
                pass
        self.assertEqual(list(self.hub.final_items()), [Item(ItemKind.FAILED, 0, HEAT, 1)])
        self.hub.close_window()
        self.assertIn("\norder fail(heat)\n", self.hub.record())

    def test_a_final_run_is_told(self) -> None:
        self.hub.window(0)
        while not isinstance(turn := self.hub.take(2, 0), Over):
            if isinstance(turn, Go):
                self.hub.give(turn.device, turn.ticket, Worked(), 0)
        self.assertEqual(list(self.hub.final_items()), [Item(ItemKind.RAN, 2, 0, 0)])

    def test_the_version_is_that_of_the_file(self) -> None:
        with open(os.path.join(HERE, "..", "..", "..", "VERSION"), encoding="utf-8") as file:
            self.assertEqual(library_version(), file.read().strip())

    def test_an_answer_of_an_earlier_window_is_late(self) -> None:
        self.hub.window(0)
        while not isinstance(early := self.hub.take(1, 0), Go):
            pass
        self.hub.give(early.device, early.ticket, Dead(), 0)
        self.play_on(0, {WINDOW: SHUT})
        self.hub.window(self.hub.begin_window("2021-04-27T08:10:00", probes=1))
        go = self.hub.probe(early.device)
        self.assertGreater(go.ticket, early.ticket)
        self.refuses(Status.NOT_OUT, "give", early.device, early.ticket, Worked(), 0)
        made = self.hub.give(go.device, go.ticket, Worked(), 0)
        self.assertEqual([entry.kind for entry in made], [EntryKind.ROSE])

    def test_numbers_that_do_not_fit(self) -> None:
        for words in [(-1, 0), (2**32, 0), (1, -1), (1, 2**64)]:
            self.assertRaises(ValueError, self.hub.take, *words)

    def test_a_closed_hub(self) -> None:
        self.hub.close()
        self.hub.close()
        for call, words in [("window", (0,)), ("take", (1, 0)), ("left", ()), ("record", ()), ("counts", ()), ("lose", (0,)),
                            ("blocked_runs", ()), ("out", (0,)), ("sealed", ()), ("final_item", (0,))]:
            self.refuses(Status.CLOSED, call, *words)

    def test_threads_step_one_hub(self) -> None:
        self.hub.restand(WINDOW, SHUT)
        number = self.hub.begin_window("2021-04-27T08:10:00")
        for _ in range(16):
            self.hub.add_run(LEAVE)
        self.hub.window(number)

        def work() -> None:
            while self.hub.left() is not None:
                for run in range(1, 17):
                    turn = self.hub.take(run, 0)
                    if isinstance(turn, Go):
                        told: Answer = Found(turn.stood) if turn.task is Task.SENSE else Worked()
                        self.hub.give(turn.device, turn.ticket, told, 0)

        threads = [threading.Thread(target=work) for _ in range(4)]
        for thread in threads:
            thread.start()
        for thread in threads:
            thread.join()
        self.hub.close_window()
        self.assertEqual(self.hub.record().count("committed"), 16)


if __name__ == "__main__":
    unittest.main()
