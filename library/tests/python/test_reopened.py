"""A home that is opened again from the log of its calls is, for all who call it, the one that went on."""
import os
import random
import sys
import unittest
from typing import Any

HERE = os.path.dirname(os.path.abspath(__file__))
sys.path[:0] = [HERE, os.path.join(HERE, ".."), os.path.join(HERE, "..", "..", "..", "python")]

import cases
from players import Player, Device
from reference.calls import BytesSink, BytesSource, Call

from lazbendix import (Answer, CallRefused, Dead, Entry, Found, Go, Hub, Model, NoRun, Refused, Scheduler, ScriptRefused, Status,
                       Turn, Waits, Worked, logged)

DAYS = int(os.environ.get("LAZBENDIX_DAYS", "60"))
PLACES = 5  # at so many places of a day the home is opened again
LEAVING = os.path.join(HERE, "..", "..", "..", "examples", "leaving.json")


def shown(hub: Hub) -> list[Any]:
    """What can be asked of a home, but for what is blocked."""

    def answer(call: Any, *words: Any) -> Any:
        try:
            return call(*words)
        except Refused as refused:
            return refused.status

    counts = hub.counts()
    devices = range(counts.devices)
    windows = [hub.run_count(window) for window in range(counts.windows)]
    orders = [answer(hub.sealed), answer(lambda: list(hub.final_items())), answer(hub.left), list(hub.entries())]
    return [counts, windows, *orders, [answer(hub.out, d) for d in devices], [answer(hub.stand, d) for d in devices]]


class LoggedHub(Hub):
    """A home that keeps each call: its bytes where it is logged, the call, and what it answered."""

    def __init__(self, *words: Any) -> None:
        super().__init__(*words)
        self.calls: list[tuple[bytes, str, tuple[Any, ...], Any]] = []
        self.seen: list[list[Any]] = []

    def keep(self, record: bytes, call: str, words: tuple[Any, ...], told: Any) -> Any:
        self.calls.append((record, call, words, told))
        self.seen.append(shown(self))
        return told

    def window(self, number: int) -> None:
        self.keep(logged.opened(number), "window", (number,), super().window(number))

    def take(self, run: int, now: int) -> Turn:
        turn = super().take(run, now)
        record = b"" if isinstance(turn, (Waits, NoRun)) else logged.took(run, now)
        return self.keep(record, "take", (run, now), turn)  # type: ignore[no-any-return]

    def give(self, device: int, ticket: int, answer: Answer, now: int) -> tuple[Entry, ...]:
        words = device, ticket, answer, now
        return self.keep(logged.gave(*words), "give", words, super().give(*words))  # type: ignore[no-any-return]

    def probe(self, device: int) -> Go:
        return self.keep(logged.probed(device), "probe", (device,), super().probe(device))  # type: ignore[no-any-return]

    def close_window(self) -> None:
        self.keep(logged.closed(), "close_window", (), super().close_window())

    def begin_window(self, at: str, probes: int = 0) -> int:
        return self.keep(logged.began(at, probes), "begin_window", (at, probes), super().begin_window(at, probes))  # type: ignore[no-any-return]

    def add_run(self, routine: int, follows: int = 0) -> int:
        words = routine, follows
        return self.keep(logged.added(*words), "add_run", words, super().add_run(*words))  # type: ignore[no-any-return]

    def restand(self, device: int, value: int) -> None:
        self.keep(logged.restood(device, value), "restand", (device, value), super().restand(device, value))

    def lose(self, device: int) -> None:
        self.keep(logged.lost(device), "lose", (device,), super().lose(device))

    def log(self, count: int) -> bytes:
        """The log of the first so many calls."""
        return b"".join(record for record, *_ in self.calls[:count])


class Reopened(unittest.TestCase):
    def goes_on(self, kept: LoggedHub, place: int, hub: Hub) -> None:
        """The home opened again behind so many calls shows what the other did there, and answers all further calls alike."""
        if place:
            self.assertEqual(shown(hub), kept.seen[place - 1])
        for (_, call, words, told), seen in zip(kept.calls[place:], kept.seen[place:]):
            self.assertEqual(getattr(hub, call)(*words), told)
            if call == "close_window":
                self.assertEqual(shown(hub), seen)
        self.assertEqual(shown(hub), kept.seen[-1])

    def test_a_day_goes_on_from_any_place(self) -> None:
        draw, opened = random.Random(58), 0
        for name, data in cases.scripts(DAYS // 2, 4):
            for model, scheduler in cases.MODES:
                call = Call(["replay", "--model", model, "--scheduler", scheduler], BytesSource(data), BytesSink())
                mode = Model(cases.MODELS[model]), Scheduler(cases.SCHEDULERS[scheduler])
                with LoggedHub(data, *mode) as kept, self.subTest(day=name, model=model, scheduler=scheduler):
                    self.play(kept, call.script)
                    for place in sorted(draw.sample(range(len(kept.calls) + 1), min(PLACES, len(kept.calls) + 1))):
                        log = kept.log(place)
                        hub, good = Hub.reopen(data, log, *mode)
                        self.assertEqual(good, len(log))
                        with hub:
                            self.goes_on(kept, place, hub)
                        opened += 1
        print(f"opened again at {opened} places", file=sys.stderr)

    def play(self, hub: Hub, script: Any) -> None:
        wall = [Device(hub.stand(d).value, device.downs) for d, device in enumerate(script.devices)]
        for number, window in enumerate(script.windows):
            player = Player(hub, script, window, wall)
            hub.window(number)
            for actor in window.turns:
                player.pick(actor)
            player.finish()
            hub.close_window()

    def moment(self) -> LoggedHub:
        """A window of the moment, with a run that joins it, between a device that was turned and one that was lost."""
        with open(LEAVING, "rb") as file:
            kept = LoggedHub(file.read())
        self.addCleanup(kept.close)
        kept.restand(1, 19)
        number = kept.begin_window("2030-01-01T00:00:00", 2)
        kept.add_run(1)
        kept.window(number)
        kept.take(1, 5)
        self.finish(kept, number, joins=True)
        kept.lose(0)
        return kept

    def finish(self, hub: Hub, number: int, joins: bool) -> None:
        now = 10
        while hub.left() is not None:
            for run in range(1, hub.run_count(number) + 1):
                now += 1
                turn = hub.take(run, now)
                if isinstance(turn, Go):
                    if joins:
                        hub.add_run(1, 1)
                        hub.give(hub.probe(2).device, hub.out(2).ticket, Dead(), now)
                        joins = False
                    told: Answer = Found(turn.stood) if turn.task.name == "SENSE" else Worked()
                    hub.give(turn.device, turn.ticket, told, now)
        hub.close_window()

    def test_windows_of_the_moment(self) -> None:
        kept = self.moment()
        with open(LEAVING, "rb") as file:
            data = file.read()
        for place in range(len(kept.calls) + 1):
            hub, good = Hub.reopen(data, kept.log(place))
            self.assertEqual(good, len(kept.log(place)))
            with hub:
                self.goes_on(kept, place, hub)
                self.assertEqual(hub.record(trace=True), kept.record(trace=True))

    def test_a_torn_log_is_a_first_part(self) -> None:
        kept = self.moment()
        whole = kept.log(len(kept.calls))
        with open(LEAVING, "rb") as file:
            data = file.read()
        for cut in range(0, len(whole), 7):
            good = cut // logged.CALL_SIZE * logged.CALL_SIZE
            for bytes_ in (whole[:cut], whole[:good] + b"\xff" * 30):
                torn, told = Hub.reopen(data, bytes_)
                first, _ = Hub.reopen(data, whole[:good])
                with torn, first:
                    self.assertEqual((told, shown(torn)), (good, shown(first)))

    def test_a_call_that_is_refused(self) -> None:
        kept = self.moment()
        with open(LEAVING, "rb") as file:
            data = file.read()
        whole = kept.log(len(kept.calls))
        wrong = [logged.closed(), logged.took(1, 1), logged.gave(0, 9, Worked(), 1), logged.probed(0), logged.opened(9),
                 logged.began("2030-01-01T00:00:00"), logged.added(0, 9), logged.restood(1, 99), logged.lost(9)]
        for record in wrong:
            with self.assertRaises(CallRefused) as refused:
                Hub.reopen(data, whole + record)
            self.assertEqual((refused.exception.good, refused.exception.status), (len(whole), Status.NO_CALL))
        with self.assertRaises(CallRefused) as refused:
            Hub.reopen(data, whole[logged.CALL_SIZE * 3 :])  # no window was opened
        self.assertEqual(refused.exception.good, 0)
        with self.assertRaises(ScriptRefused):
            Hub.reopen(b"{}", whole)

    def test_the_bytes_of_the_page(self) -> None:
        self.assertEqual(logged.took(1, 1500).hex(" "), "04 00 00 00 01 00 00 00 00 00 00 00 00 00 00 00 dc 05 00 00 00 00 00 00")
        self.assertEqual(logged.gave(3, 7, Worked(), 1750).hex(" "),
                         "05 01 03 00 00 00 00 00 07 00 00 00 00 00 00 00 d6 06 00 00 00 00 00 00")
        self.assertEqual(int.from_bytes(logged.began("2026-12-01T09:05:00", 3)[8:16], "little"), 20261201090500)


if __name__ == "__main__":
    unittest.main()
