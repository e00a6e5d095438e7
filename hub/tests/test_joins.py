"""Runs that join an open window; and the log of calls, which is synced before a device is driven
and before an end is told."""
import asyncio
import unittest
from typing import Callable

from lazbendix_hub.calls import _can_join
from lazbendix_hub.kinds import Payload
from lazbendix_hub.live import Ended, Watcher
from lazbendix_hub.simulated import Manner
from tests.stage import HOME, Stage, until

MANY = HOME.replace("limit: 1s", "limit: 5s") + "  short: {do: [{set: door, to: locked}]}\n"
GONE = HOME + "  short: {do: [{set: door, to: locked}]}\n"


@unittest.skipUnless(_can_join(), "this library takes no run on an open window")
class Joins(unittest.IsolatedAsyncioTestCase):
    async def test_a_trigger_waits_for_no_window(self) -> None:
        async with Stage(MANY, Manner(late=0.01, blinds=3.0)) as stage:
            stage.begin("wake")  # the blinds move for three seconds
            await until(lambda: stage.live.out)
            await asyncio.sleep(0.1)
            stage.begin("short")
            await until(lambda: stage.ends.all)
            self.assertEqual((stage.ends.all[0].routine, stage.live.is_open), ("short", True))
            first = stage.ends.all[0].first_call
            assert first is not None
            self.assertLess(first, 1000)  # a few ms, where the machine is not busy
            self.assertEqual(stage.live.counts["joined"], 1)
            await stage.quiet()
            self.assertEqual(stage.live.counts["windows"], 1)
            self.assertIn("1 windows with 2 runs agree", stage.check())

    async def test_one_that_joins_waits_for_its_device(self) -> None:
        async with Stage(HOME, Manner(late=0.01, blinds=2.0)) as stage:
            stage.begin("wake")
            await until(lambda: stage.live.out)
            stage.begin("film")  # the blinds again
            await until(lambda: any("waits for blinds" in run.state
                                    for run in stage.live.runs.values()))
            self.assertEqual(stage.live.shown()["order"], ["wake", "film"])
            await stage.quiet()
            self.assertEqual([each.routine for each in stage.ends.all], ["wake", "film"])
            self.assertEqual(stage.stands()["blinds"], ("0", "0", True))
            self.assertIn("1 windows with 2 runs agree", stage.check())

    async def test_more_than_a_window_takes(self) -> None:
        async with Stage(MANY, Manner(late=0.002, blinds=6.0)) as stage:
            stage.begin("wake")
            await until(lambda: stage.live.out)
            for _ in range(66):
                stage.begin("short")
            self.assertEqual((len(stage.live.queue), stage.live.counts["joined"]), (3, 63))
            await stage.quiet(60)
            self.assertEqual(len(stage.ends.all), 67)
            self.assertEqual(stage.live.counts["windows"], 2)
            self.assertIn("2 windows with 67 runs agree", stage.check())

    async def test_a_routine_whose_device_was_turned_waits_for_a_quiet_moment(self) -> None:
        async with Stage(HOME, Manner(late=0.01, blinds=2.0)) as stage:
            stage.begin("film")
            await stage.quiet()
            stage.begin("wake")
            await until(lambda: stage.live.out)
            stage.devices["shelf"].turn(77)
            await until(lambda: stage.live._strayed())
            stage.begin("evening")  # it drives the shelf, which is not where the home has it
            self.assertEqual(len(stage.live.queue), 1)
            await stage.quiet()
            self.assertEqual(stage.live.counts["turned"], 1)
            self.assertEqual([each.routine for each in stage.ends.all],
                             ["film", "wake", "evening"])
            self.assertIn("runs agree", stage.check())

    async def test_the_final_order_has_failures(self) -> None:
        async with Stage(GONE, Manner(late=0.01, blinds=6.0)) as stage:
            stage.begin("evening")
            stage.begin("wake")
            stage.devices["door"].is_broken = True
            stage.begin("short")  # its device is gone
            await until(lambda: {each.routine for each in stage.ends.all} == {"evening", "short"})
            told = stage.live.shown()
            self.assertEqual(told["final"][0], "evening")
            self.assertEqual(sorted(told["final"] + told["order"]),
                             ["door fails", "evening", "wake"] if "door fails" in told["final"]
                             else ["evening", "wake"])
            await stage.quiet()
            self.assertIn("runs agree", stage.check())


class Lost(unittest.IsolatedAsyncioTestCase):
    async def test_a_device_that_says_that_it_is_away_is_lost(self) -> None:
        async with Stage() as stage:
            stage.devices["door"].leave()
            await until(lambda: stage.live.down)
            self.assertEqual(stage.live.down, {stage.home.numbers["door"]})
            told, = await stage.run("half")
            self.assertEqual((told.outcome, told.cause_kind), ("aborted", "no-answer"))
            self.assertIn("# lost door\n", stage.record())
            self.assertIn("runs agree", stage.check())


class Logged(unittest.IsolatedAsyncioTestCase):
    async def test_the_log_is_on_the_disk_before_a_device_is_driven_and_an_end_told(self) -> None:
        async with Stage() as stage:
            log = stage.live.calls.core.log
            sent: list[bool] = []

            def noting(send: Callable[[Payload], None]) -> Callable[[Payload], None]:
                def noted(payload: Payload) -> None:
                    sent.append(log.durable == log.count)
                    send(payload)
                return noted

            class Watching(Watcher):
                def ended(self, ended: Ended) -> None:
                    sent.append(log.durable == log.count)
            for driver in stage.house.drivers:
                setattr(driver, "send", noting(driver.send))
            stage.live.watchers.append(Watching())
            await stage.run("evening")
            self.assertEqual(sent, [True] * 4)
            self.assertLessEqual(log.syncs, 6)


if __name__ == "__main__":
    unittest.main()
