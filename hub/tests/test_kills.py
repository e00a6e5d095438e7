"""Kills: the hub goes on with the window that was open, by the log of its calls."""
import asyncio
import os
import unittest
from typing import Any
from unittest import mock

from lazbendix import LogRefused

from lazbendix_hub.simulated import Manner
from tests.stage import HOME, Stage, until

SLOW = HOME.replace("limit: 1s", "limit: 5s")


class Kills(unittest.IsolatedAsyncioTestCase):
    def fits(self, stage: Stage) -> None:
        """Each device is where the home has it."""
        for name, (home, there, up) in stage.stands().items():
            self.assertEqual((home, up), (there, True), name)

    async def again(self, stage: Stage) -> None:
        """A kill, and the next life."""
        await stage.kill()
        await stage.open()

    async def test_at_any_moment(self) -> None:
        async with Stage(SLOW, Manner(late=0.03, blinds=0.5)) as stage:
            names = [routine.name for routine in stage.home.routines]
            begun = set[int]()
            for _ in range(12):
                for _ in range(stage.draw.randint(1, 4)):
                    begun.add(stage.begin(stage.draw.choice(names)))
                stage.ledger.sync()  # as one that acknowledges them
                await asyncio.sleep(stage.draw.uniform(0, 0.3))
                await self.again(stage)
            await stage.quiet(60)
            told = [each.trigger for each in stage.ends.all]
            self.assertEqual(set(told), begun)
            twice = [each for each in begun if told.count(each) > 1]
            for each in twice:  # told again, and never otherwise
                self.assertEqual(len({(end.outcome, end.cause_kind) for end in stage.ends.all
                                      if end.trigger == each}), 1)
            await until(lambda: not stage.live.down, 20)
            await stage.quiet()
            self.fits(stage)
            self.assertIn(f"with {len(begun)} runs agree", stage.check())

    async def test_a_sensor_that_is_back_meanwhile(self) -> None:
        async with Stage(SLOW) as stage:
            window = stage.devices["window"]
            window.leave()
            await until(lambda: stage.live.down)
            await stage.run("evening")  # with it the log is on the disk
            await stage.kill()
            window.turn(1)
            window.come()  # it says so while no hub is there, and then nothing for a long time
            await stage.heard(by=stage.sim)
            await stage.open()
            await until(lambda: not stage.live.down, 20)
            told, = await stage.run("leave")
            self.assertEqual((told.outcome, told.cause), ("committed", ""))
            self.fits(stage)
            self.assertIn("runs agree", stage.check())

    async def test_twice_in_one_window_with_a_device_that_is_lost(self) -> None:
        async with Stage(SLOW, Manner(late=0.02, blinds=3.0)) as stage:
            stage.devices["door"].leave()
            await until(lambda: stage.live.down)
            stage.devices["shelf"].turn(77)
            await until(lambda: stage.live.counts["turned"] == 1)
            number = stage.begin("film")
            for _ in range(2):
                await until(lambda: stage.live.out)
                await self.again(stage)
                self.assertEqual((stage.live.is_open, stage.live.down),
                                 (True, {stage.home.numbers["door"]}))
            stage.begin("guests")  # it joins, as if nothing had been
            await stage.quiet(30)
            self.assertEqual(sorted(each.routine for each in stage.ends.all), ["film", "guests"])
            self.assertEqual([each.trigger for each in stage.ends.all
                              if each.routine == "film"], [number])
            self.assertIn("# found shelf=77\n", stage.record())
            self.assertIn("# lost door\n", stage.record())
            stage.devices["door"].come()
            await until(lambda: not stage.live.down)
            await stage.quiet()
            self.fits(stage)
            self.assertIn("runs agree", stage.check())

    async def test_after_the_window_was_closed_and_before_its_record(self) -> None:
        for is_written in (False, True):
            async with Stage(SLOW) as stage:
                def stop_here(*words: Any) -> None:
                    if is_written:
                        closed(*words)
                    raise KeyError("the hub is killed here")
                closed = stage.house.records.closed
                setattr(stage.house.records, "closed", stop_here)
                number = stage.begin("evening")
                assert stage.house.task is not None
                await until(stage.house.task.done)
                await self.again(stage)
                await stage.quiet()
                self.assertEqual({each.trigger for each in stage.ends.all}, {number})
                self.assertEqual((stage.live.is_open, stage.ledger.number), (False, number))
                self.fits(stage)
                await stage.run("film")
                self.assertIn("2 windows with 2 runs agree", stage.check())

    async def test_after_a_window_was_begun_and_before_it_was_opened(self) -> None:
        async with Stage(SLOW) as stage:
            def stop_here(number: int) -> None:
                stage.ledger.sync()
                stage.live.calls.core.log.sync()
                raise KeyError("the hub is killed here")
            setattr(stage.live.calls, "window", stop_here)
            numbers = {stage.begin("evening"), stage.begin("film")}
            assert stage.house.task is not None
            await until(stage.house.task.done)
            await self.again(stage)
            await stage.quiet()
            self.assertEqual({each.trigger for each in stage.ends.all}, numbers)
            self.fits(stage)
            self.assertIn("with 2 runs agree", stage.check())

    async def test_another_home_or_a_damaged_log(self) -> None:
        for is_damaged in (False, True):
            async with Stage(SLOW) as stage:
                await stage.run("guests")
                stage.devices["door"].is_broken = True
                stage.begin("half")
                await until(lambda: stage.devices["shelf"].value in (98, 99))
                await stage.kill()
                stage.devices["door"].is_broken = False
                path = os.path.join(stage.folder, "calls.log")
                if is_damaged:
                    with open(path, "r+b") as file:
                        file.seek(64 + 5 * 32)
                        file.write(b"\xff" * 40)
                else:
                    script = os.path.join(stage.folder, "calls.script")
                    with open(script, "rb") as file:
                        text = file.read().replace(b'"evening"', b'"daytime"')
                    with open(script, "wb") as file:
                        file.write(text)
                await stage.open()
                self.assertEqual(os.path.exists(path + ".refused"), is_damaged)
                await stage.quiet()  # it was driven back, and `half` begun again
                self.assertEqual([each.outcome for each in stage.ends.all],
                                 ["committed", "committed"])
                self.fits(stage)
                self.assertIn("runs agree", stage.check())

    async def test_a_disk_that_refuses(self) -> None:
        async with Stage(SLOW) as stage:
            await stage.run("guests")
            before = {name: device.commands for name, device in stage.devices.items()}

            def fails(file: int) -> None:
                raise OSError(28, "No space left on device")
            with mock.patch("lazbendix.call_log.sync_file", fails):
                number = stage.begin("half")
                assert stage.house.task is not None
                await until(stage.house.task.done)
                with self.assertRaises(LogRefused):
                    stage.house.task.result()
            await asyncio.sleep(0.2)
            self.assertEqual({name: device.commands for name, device in stage.devices.items()},
                             before)  # nothing was let out
            await self.again(stage)
            await stage.quiet()
            self.assertEqual([(each.trigger, each.outcome) for each in stage.ends.all][1:],
                             [(number, "committed")])
            self.fits(stage)
            self.assertIn("2 windows with 2 runs agree", stage.check())

    async def test_the_log_is_begun_anew(self) -> None:
        from lazbendix_hub import again
        before, again.MOST_RECORDS = again.MOST_RECORDS, 40
        try:
            async with Stage(SLOW) as stage:
                for name in ("evening", "film", "guests", "wake"):
                    await stage.run(name)
                self.assertLess(stage.live.calls.core.log.count, 60)
                await self.again(stage)
                await stage.run("film", "evening")
                self.fits(stage)
                self.assertIn("with 6 runs agree", stage.check())
        finally:
            again.MOST_RECORDS = before


if __name__ == "__main__":
    unittest.main()
