"""The same race by three hands: steps that do not wait, steps that wait for the state, the hub.

Two routines over the same three lamps, in opposite orders, begin within 20 ms of each other: an end
is mixed where it is the one of neither. With limits that the lamps miss, those that are up agree at
each end, and all do once each has come back. Then a routine of three steps whose last device is
gone: it is half done where the first two stay. `python3 -m tests.test_race 100` prints what comes
of 100.
"""
import asyncio
import random
import sys
import unittest
from typing import Awaitable, Callable

from lazbendix_hub.drivers import DeviceDriver
from lazbendix_hub.live import Watcher
from lazbendix_hub.simulated import Manner
from tests.stage import Stage, until

NAMES = ("lamp", "glow", "shelf")
TEXT = """
limit: 20s
devices:
  lamp: {kind: dimmer}
  glow: {kind: dimmer}
  shelf: {kind: dimmer}
  gone: {kind: dimmer, limit: 0.6}
routines:
  evening: {do: [{set: lamp, to: 20}, {set: glow, to: 20}, {set: shelf, to: 20}]}
  guests: {do: [{set: shelf, to: 250}, {set: glow, to: 250}, {set: lamp, to: 250}]}
  half: {do: [{set: lamp, to: 99}, {set: glow, to: 99}, {set: gone, to: 99}]}
  half_shelf: {do: [{set: shelf, to: 99}, {set: gone, to: 99}]}
"""
# Limits that devices often miss: their commands are given up, and come after all.
SHORT = TEXT.replace("limit: 20s", "limit: 0.2").replace(", limit: 0.6", "")
Play = Callable[[str], Awaitable[None]]


class Race:
    """Plays the race on a stage; `ways` has the three hands."""

    def __init__(self, stage: Stage) -> None:
        self.stage, self.draw = stage, random.Random(1)
        self.ways: dict[str, Play] = {"steps that do not wait": self.sends,
                                      "steps that wait for the state": self.waits,
                                      "the hub": self.hub}

    def steps(self, name: str) -> list[tuple[DeviceDriver, int]]:
        """The devices of a routine, and their values."""
        of = {routine.name: routine for routine in self.stage.home.routines}[name]
        return [(self.stage.house.drivers[command.device], command.value)
                for command in of.commands]

    async def sends(self, name: str) -> None:
        """By MQTT alone, as fast as it goes."""
        for driver, value in self.steps(name):
            driver.send(driver.kind.payload(value))
            await asyncio.sleep(0)

    async def waits(self, name: str) -> None:
        """By MQTT alone, as a careful automation does it: a step when the one before is seen."""
        for driver, value in self.steps(name):
            try:
                await asyncio.wait_for(driver.drive(value), driver.limit)
            except asyncio.TimeoutError:
                return

    async def hub(self, name: str) -> None:
        """Through the hub."""
        number = self.stage.begin(name)
        while not any(each.trigger == number for each in self.stage.ends.all):
            await asyncio.sleep(0.005)
        await self.stage.quiet()

    async def mixed(self, play: Play, races: int) -> int:
        """How many ends are mixed."""
        async def late() -> None:
            await asyncio.sleep(self.draw.uniform(0, 0.02))
            await play("guests")
        count = 0
        for _ in range(races):
            await asyncio.gather(play("evening"), late())
            await asyncio.sleep(0.1)
            seen = [self.stage.devices[name].value or 0 for name in NAMES]
            count += not (all(value < 25 for value in seen) or all(value > 240 for value in seen))
        return count

    async def half_done(self, play: Play, tries: int) -> int:
        """How many routines whose last device is gone stay half done."""
        count = 0
        for _ in range(tries):
            await play("guests")
            await asyncio.sleep(0.1)
            await play("half")
            await asyncio.sleep(0.1)
            count += any(abs((self.stage.devices[name].value or 0) - 99) < 3 for name in NAMES)
        return count


async def play(races: int, tries: int) -> dict[str, tuple[int, int]]:
    """Of each way how many ends are mixed, and how many routines half done."""
    found = {}
    async with Stage(TEXT, Manner(late=0.03), without=("gone",)) as stage:
        race = Race(stage)
        for way, by in race.ways.items():
            found[way] = await race.mixed(by, races), await race.half_done(by, tries)
        stage.check()
    return found


def kind_of(stage: Stage, names: list[str]) -> str:
    """Whether these devices stand where one routine has them."""
    seen = [stage.devices[name].value or 0 for name in names]
    return "low" if all(value < 25 for value in seen) else \
        "high" if all(value > 240 for value in seen) else "mixed"


class Windows(Watcher):
    """Looks at the devices at the end of each window: those that are up have to be where the home
    has them, and have to agree. `wrong` has what is not so, `downs` how many ends had one down."""

    def __init__(self, stage: Stage) -> None:
        self.stage, self.wrong, self.downs, self.ends = stage, list[str](), 0, 0
        stage.live.watchers.append(self)

    def changed(self) -> None:
        """Something has changed: perhaps a window has ended."""
        count = self.stage.live.counts["windows"]
        if self.stage.live.is_open or count == self.ends:
            return
        self.ends = count
        stands = {name: stand for name, stand in self.stage.stands().items() if name in NAMES}
        up = [name for name, stand in stands.items() if stand[2]]
        self.downs += len(up) < len(NAMES)
        if any(stands[name][0] != stands[name][1] for name in up) \
                or kind_of(self.stage, up) == "mixed":
            self.wrong.append(str(stands))


async def settle(stage: Stage) -> None:
    """Waits until each device is up, and has done all that it was sent."""
    calm = 0
    while calm < 50:
        await asyncio.sleep(0.01)
        is_busy = stage.live.is_open or stage.live.queue or stage.live.down & {0, 1, 2} \
            or any(stage.devices[name].jobs.qsize() for name in NAMES)
        calm = 0 if is_busy else calm + 1


class Races(unittest.IsolatedAsyncioTestCase):
    async def test_devices_that_are_late(self) -> None:
        async with Stage(SHORT, Manner(late=0.15), without=("gone",)) as stage:
            race, windows = Race(stage), Windows(stage)
            for _ in range(12):
                await asyncio.gather(race.hub("evening"), race.hub("guests"))
                await asyncio.wait_for(settle(stage), 60)
                self.assertNotEqual(kind_of(stage, list(NAMES)), "mixed")
            self.assertEqual(windows.wrong, [])
            self.assertGreater(windows.ends, windows.downs)
            self.assertGreater(windows.downs, 0)
            self.assertEqual(stage.live.counts["turned"], 0)  # no hand was at them
            self.assertIn("runs agree", stage.check())

    async def test_a_command_that_was_given_up_comes_after_all(self) -> None:
        async with Stage(SHORT.replace("limit: 0.2", "limit: 1s"), Manner(late=0),
                         without=("gone",)) as stage:
            shelf = stage.devices["shelf"]
            await stage.run("evening")
            shelf.task.cancel()  # from here on it does nothing by itself, and is sent commands
            told, = await stage.run("guests")
            self.assertEqual((told.outcome, told.cause_kind), ("aborted", "no-answer"))
            for _ in range(200):  # it answers what it was asked before, and is found again
                if 2 not in stage.live.down:
                    break
                shelf.show()
                await asyncio.sleep(0.01)
            await stage.quiet()
            self.assertEqual(stage.stands()["shelf"], ("20", "20", True))
            shelf.turn(250)  # what was given up is done
            await until(lambda: 2 in stage.live.down)
            told, = await stage.run("half_shelf")
            self.assertEqual(told.outcome, "aborted")
            shelf.task = asyncio.get_running_loop().create_task(shelf._live())
            await asyncio.wait_for(settle(stage), 60)
            for name in NAMES:
                self.assertEqual(stage.stands()[name], ("20", "20", True), name)
            self.assertEqual(stage.live.counts["turned"], 0)
            self.assertIn("runs agree", stage.check())

    async def test_the_race(self) -> None:
        found = await play(20, 3)
        self.assertGreater(found["steps that wait for the state"][0], 10)
        self.assertEqual(found["steps that wait for the state"][1], 3)
        self.assertEqual(found["the hub"], (0, 0))


if __name__ == "__main__":
    RACES = int(sys.argv[1]) if len(sys.argv) > 1 else 100
    for way, (mixed, half) in asyncio.run(play(RACES, 5)).items():
        print(f"{way}: {mixed} of {RACES} ends are mixed; {half} of 5 routines whose last device "
              "is gone are half done")
