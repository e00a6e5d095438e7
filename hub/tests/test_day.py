"""A day of 24 hours, simulated: the clock jumps where nothing is to be done.

The hub, its devices and their messages are in one process and one loop, with a broker in memory, so
that a day of a busy household passes in some seconds: motion, hands, a thermometer, devices that
are away for hours, times by cron and by the sun, a kill now and then. LAZBENDIX_DAYS says how many
days are played.
"""
from __future__ import annotations

import asyncio
import datetime
import os
import random
import resource
import selectors
import tempfile
import types
import unittest
from typing import Any, Awaitable, Callable
from unittest import mock

from lazbendix_hub import live, triggers
from lazbendix_hub.broker import Broker, Heard
from lazbendix_hub.house import House
from lazbendix_hub.ledger import Ledger, Records
from lazbendix_hub.simulated import Manner, make_devices
from tests.stage import Ends, checked, read

DAY = 86_400.0
BEGIN = datetime.datetime(2026, 5, 4, 0, 0, 0)  # a Monday
HOME = """
limit: 5s
place: {latitude: 52.5, longitude: 13.4}
devices:
  lamp: {kind: dimmer}
  shelf: {kind: dimmer}
  glow: {kind: colour}
  heat: {kind: climate}
  blinds: {kind: blinds, limit: 60s}
  door: {kind: lock}
  pump: {kind: plug, maker: tasmota}
  window: {kind: contact}
  hall: {kind: motion}
  inside: {kind: thermometer}
routines:
  wake:
    do: [{set: blinds, to: open, optional: true}, {set: lamp, to: 120}, {set: heat, to: 21.5}]
    when: [{cron: "30 6 * * 1-5"}]
  leave:
    do: [{check: window, to: shut}, {set: heat, to: 15}, {set: lamp, to: off},
         {set: pump, to: off, optional: true}, {set: door, to: locked}]
    when: [{cron: "15 8 * * *"}]
  come: {do: [{set: door, to: unlocked}, {set: lamp, to: on}, {set: heat, to: 21}]}
  film: {do: [{set: blinds, to: shut}, {set: shelf, to: 20}, {set: glow, to: red, optional: true}]}
  water: {do: [{set: pump, to: on}, {set: shelf, to: 9}, {set: pump, to: off}]}
  dusk: {do: [{set: shelf, to: 60}, {set: glow, to: warm}], when: [{sun: sunset, offset: -30m}]}
  night:
    do: [{set: shelf, to: off}, {set: heat, to: 17}, {set: door, to: locked}]
    when: [{cron: "0 23 * * *"}]
  light: {do: [{set: lamp, to: 40%}], when: [{device: hall, to: motion}]}
  dark: {do: [{set: lamp, to: off}], when: [{device: hall, to: clear, after: 5m}]}
  cold: {do: [{set: heat, to: 22}], when: [{device: inside, below: 18}]}
"""


class Clock:
    """The time, in s since the beginning of the day."""

    now = 0.0

    def wall(self) -> float:
        """The wall's clock."""
        return BEGIN.timestamp() + self.now


class Jumping(selectors.DefaultSelector):
    """Waits for nothing: where no file is ready the clock jumps to the next moment."""

    def __init__(self, clock: Clock) -> None:
        super().__init__()
        self.clock = clock

    def select(self, timeout: float | None = None) -> Any:
        ready = super().select(0)
        if not ready:
            self.clock.now += 3600.0 if timeout is None else max(timeout, 0)
        return ready


class Loop(asyncio.SelectorEventLoop):
    """A loop with that clock."""

    def __init__(self, clock: Clock) -> None:
        super().__init__(Jumping(clock))
        self.clock = clock

    def time(self) -> float:
        return self.clock.now


class Room:
    """What the ends of a broker in memory share."""

    def __init__(self) -> None:
        self.ends: list[End] = []
        self.kept: dict[str, bytes] = {}


class End(Broker):
    """A connection to a broker in memory, whose messages take 2 ms."""

    def __init__(self, room: Room) -> None:
        super().__init__("end", "")
        self.room, self.is_up = room, True
        self.up.set()
        room.ends.append(self)

    def subscribe(self, topic: str, heard: Heard) -> None:
        self.heard.setdefault(topic, []).append(heard)
        if topic in self.room.kept:
            self.loop.call_soon(heard, topic, self.room.kept[topic], True)

    def publish(self, topic: str, payload: str, is_retained: bool = False) -> None:
        if is_retained:
            self.room.kept[topic] = payload.encode()
        self.loop.call_later(0.002, self._deliver, topic, payload.encode())

    def _deliver(self, topic: str, payload: bytes) -> None:
        for end in self.room.ends:
            for heard in list(end.heard.get(topic, ())):
                heard(topic, payload, False)


class Day:
    """Plays the day; what is found is in `ends`, and in the folder."""

    def __init__(self, folder: str, seed: int) -> None:
        self.folder, self.draw, self.ends = folder, random.Random(seed), Ends()
        self.home, self.room = read(HOME), Room()
        self.acknowledged: set[int] = set()
        self.unheard = 0  # triggers that came while no hub was there
        self.lives = 0
        self.is_open = False

    async def begin(self) -> None:
        """A life of the hub."""
        self.lives += 1
        self.ledger = Ledger(self.folder)
        self.house = House(self.home, End(self.room), self.ledger, Records(self.folder))
        await self.house.open(self.ledger.kept, [self.ends])
        self.is_open = True

    async def kill(self) -> None:
        """Its end, at any moment."""
        assert self.house.task is not None
        self.is_open = False
        self.house.task.cancel()
        await asyncio.gather(self.house.task, return_exceptions=True)
        for out in self.house.live.out.values():
            if out.task is not None:
                out.task.cancel()
            if out.timer is not None:
                out.timer.cancel()
        self.house.triggers.end()
        self.room.ends.remove(self.house.broker)  # type: ignore[arg-type]
        self.house.live.calls.core.log.fail(OSError("killed"))
        self.house.live.calls.close()
        self.ledger.file.flush()
        self.ledger.lock.close()

    async def play(self) -> None:
        """The day."""
        self.devices = make_devices(self.home, End(self.room), Manner(late=0.4, fails=0.01,
                                                                      blinds=25))
        await self.begin()
        loop = asyncio.get_running_loop()
        world = [loop.create_task(each()) for each in (self.hands, self.people, self.away)]
        for _ in range(12):
            await asyncio.sleep(DAY / 12 - loop.time() % (DAY / 12) + self.draw.uniform(0, 60))
            await self.kill()
            await self.begin()
        for task in world:
            task.cancel()
        for came in await asyncio.gather(*world, return_exceptions=True):
            if not isinstance(came, asyncio.CancelledError):
                raise AssertionError("the world has ended before the day") from came
        await self.rest()

    async def often(self, mean: float, does: Callable[[], Awaitable[None]]) -> None:
        """Does it again and again, at drawn moments."""
        while True:
            await asyncio.sleep(self.draw.expovariate(1 / mean))
            await does()

    async def people(self) -> None:
        """They begin routines."""
        async def one() -> None:
            number = self.draw.randrange(len(self.home.routines))
            if not self.is_open:  # while it is killed, and while it opens its home again
                self.unheard += 1
                return
            trigger = self.house.live.begin(number, "http")
            if trigger is not None:
                self.ledger.sync()
                self.acknowledged.add(trigger.accepted.number)
        await self.often(45, one)

    async def hands(self) -> None:
        """They turn things, walk through the hall, and it becomes cold and warm."""
        async def one() -> None:
            if self.draw.random() < 0.7:
                self.devices["hall"].turn(1)
                await asyncio.sleep(self.draw.uniform(5, 60))
                self.devices["hall"].turn(0)
            else:
                self.devices[self.draw.choice(["lamp", "shelf", "window", "inside"])].turn()
        await self.often(300, one)

    async def away(self) -> None:
        """A device is away for some time, an hour in the middle; it says so, or it does not."""
        async def one() -> None:
            device = self.devices[self.draw.choice(["pump", "door", "heat", "glow"])]
            device.manner.has_offline = self.draw.random() < 0.5
            device.leave()
            await asyncio.sleep(self.draw.expovariate(1 / 3600))
            device.come()
        await self.often(3600, one)

    async def rest(self) -> None:
        """All is there, nothing is lost, and the hub comes to rest."""
        for simulated in self.devices.values():
            simulated.manner.fails = 0
            if simulated.is_away:
                simulated.come()
        hub = self.house.live
        while hub.is_open or hub.queue or hub.down:
            await asyncio.sleep(1)
        self.strayed = []
        for number, device in enumerate(self.home.devices[: self.home.core_count]):
            stand, value = hub.calls.stand(number), self.devices[device.name].value
            if not stand.up or value is None or not device.kind.is_near(value, stand.value):
                self.strayed.append(f"{device.name}: {stand} at home, at {value}")
        await hub.stop(60)
        await self.house.close()
        self.ledger.close()
        for simulated in self.devices.values():
            simulated.end()


def clocked(clock: Clock) -> Any:
    """The module datetime, by this clock."""
    class Now(datetime.datetime):
        @classmethod
        def now(cls, tz: Any = None) -> Any:
            return datetime.datetime.fromtimestamp(clock.wall(), tz)
    return types.SimpleNamespace(datetime=Now, timedelta=datetime.timedelta,
                                 timezone=datetime.timezone, date=datetime.date)


class Simulated(unittest.TestCase):
    def test_days(self) -> None:
        for seed in range(int(os.environ.get("LAZBENDIX_DAYS", "1"))):
            with self.subTest(seed=seed):
                self.play(seed)

    def play(self, seed: int) -> None:
        clock = Clock()
        place = "/dev/shm" if os.path.isdir("/dev/shm") else None
        with tempfile.TemporaryDirectory(dir=place) as folder, \
                mock.patch("time.time", clock.wall), \
                mock.patch("time.monotonic", lambda: clock.now), \
                mock.patch.object(live, "datetime", clocked(clock)), \
                mock.patch.object(triggers, "datetime", clocked(clock)):
            day = Day(folder, seed)
            before = resource.getrusage(resource.RUSAGE_SELF).ru_maxrss
            loop = Loop(clock)
            try:
                loop.run_until_complete(day.play())
            finally:
                loop.close()
            grown = resource.getrusage(resource.RUSAGE_SELF).ru_maxrss - before
            said = checked(folder)
        self.fits(day, said)
        self.assertLess(grown, 40_000)  # KB

    def fits(self, day: Day, said: str) -> None:
        """What a day has to come to."""
        told = [each.trigger for each in day.ends.all]
        self.assertEqual(day.acknowledged - set(told), set())
        self.assertEqual(day.strayed, [])
        runs = {each.trigger for each in day.ends.all if each.outcome != "expired"}
        self.assertRegex(said, f"^[0-9]+ windows with {len(runs)} runs agree$")
        # 1,920 drawn triggers of people are the mean, with a deviation of 44.
        self.assertGreater(len(day.acknowledged), 1700)
        self.assertLess(day.unheard, 12)
        by_time = [(each.routine, each.source) for each in day.ends.all
                   if each.source.startswith(("cron", "sun"))]
        self.assertEqual(sorted({source for _, source in by_time if "cron" in source}),
                         ["cron 06:30", "cron 08:15", "cron 23:00"])
        self.assertEqual([routine for routine, source in by_time if "sun" in source], ["dusk"])
        self.assertGreater(sum(each.routine == "dark" and "later" in each.source
                               for each in day.ends.all), 20)


if __name__ == "__main__":
    unittest.main()
