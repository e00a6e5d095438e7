"""The hub over a real broker and simulated devices."""
import asyncio
import time
import unittest
from unittest import mock

from lazbendix import Go, Task, Worked

from lazbendix_hub.ledger import Ledger
from lazbendix_hub.simulated import Manner
from tests.stage import HOME, Stage, until

PATIENT = HOME.replace("limit: 5s", "limit: 4s").replace("limit: 20s", "limit: 4s")
QUICK = HOME.replace("limit: 5s", "limit: 0.5").replace("limit: 20s", "limit: 3s")
SLOW = HOME.replace("limit: 1s", "limit: 3s")


class Live(unittest.IsolatedAsyncioTestCase):
    async def test_runs(self) -> None:
        async with Stage() as stage:
            told = await stage.run("evening", "film", "wake")
            self.assertEqual([each.outcome for each in told], ["committed"] * 3)
            for name, (home, there, up) in stage.stands().items():
                self.assertEqual((home, up), (there, True), name)
            self.assertIn("runs agree", stage.check())
            self.assertTrue(all(each.first_call is not None and each.first_call < 20_000
                                for each in told))

    async def test_a_device_that_is_gone(self) -> None:
        async with Stage(SLOW) as stage:
            await stage.run("evening")
            stage.devices["door"].is_broken = True  # it says nothing at all
            told, = await stage.run("half")
            self.assertEqual((told.outcome, told.cause_kind), ("aborted", "no-answer"))
            self.assertIn("door did not answer", told.cause)
            self.assertEqual(stage.stands()["lamp"], ("20", "20", True))  # taken back
            self.assertEqual(stage.stands()["shelf"], ("20", "20", True))
            self.assertFalse(stage.stands()["door"][2])
            begin = time.monotonic()
            told, = await stage.run("half")
            self.assertEqual(told.outcome, "aborted")
            self.assertLess(time.monotonic() - begin, 2.8)  # nobody waits for the limit again
            stage.devices["door"].is_broken = False
            await until(lambda: not stage.live.down, 10)  # it is asked, shows itself, is probed
            await stage.quiet()
            told, = await stage.run("half")
            self.assertEqual(told.outcome, "committed")
            self.assertEqual(stage.stands()["door"], ("locked", "locked", True))
            self.assertIn("runs agree", stage.check())

    async def test_one_that_says_nothing_where_nothing_changes(self) -> None:
        async with Stage(HOME.replace("limit: 5s", "limit: 60s"),
                         Manner(late=0.02, blinds=0.3, is_silent=True)) as stage:
            await stage.run("film", "evening")
            told = await stage.run("film", "evening")  # it is asked at once, and not after 30 s
            self.assertEqual([each.outcome for each in told], ["committed"] * 2)
            self.assertLess(max(each.took for each in told), 20_000)

    async def test_one_that_says_that_it_is_away(self) -> None:
        async with Stage(SLOW) as stage:
            stage.devices["door"].leave()
            await asyncio.sleep(0.05)
            begin = time.monotonic()
            told, = await stage.run("half")
            self.assertEqual(told.outcome, "aborted")
            self.assertLess(time.monotonic() - begin, 2.8)  # Dead at once
            asked = stage.live.counts["probes"]
            await asyncio.sleep(0.5)
            self.assertEqual(stage.live.counts["probes"], asked)  # no probe until it is back
            stage.devices["door"].come()
            await until(lambda: not stage.live.down)
            told, = await stage.run("half")
            self.assertEqual(told.outcome, "committed")

    async def test_a_limit_does_not_pass_while_the_hub_sleeps(self) -> None:
        with mock.patch("lazbendix_hub.live.HEARING", 3.0):  # the machine may be a busy one
            await self.sleeps()

    async def sleeps(self) -> None:
        async with Stage(HOME.replace("limit: 5s", "limit: 3s")) as stage:
            stage.begin("evening")
            await until(lambda: stage.live.out)
            time.sleep(4)  # as where the machine is put to sleep, or has much else to do
            await stage.quiet()
            self.assertEqual([each.outcome for each in stage.ends.all], ["committed"])
            self.assertEqual(stage.live.counts["dead"], 0)

    async def test_hands(self) -> None:
        async with Stage() as stage:
            await stage.run("evening")
            stage.devices["lamp"].turn(200)
            await until(lambda: stage.live.counts["turned"] == 1)
            stage.devices["window"].turn(0)
            told, = await stage.run("leave")
            self.assertEqual((told.outcome, told.cause_kind), ("aborted", "check"))
            self.assertIn("window is not shut", told.cause)
            stage.devices["window"].turn(1)
            await until(lambda: stage.live.counts["turned"] == 2)
            told, = await stage.run("leave")
            self.assertEqual(told.outcome, "committed")
            self.assertEqual(stage.stands()["lamp"], ("0", "0", True))
            self.assertIn("runs agree", stage.check())

    async def test_lost_commands(self) -> None:
        async with Stage(QUICK, Manner(late=0.01, fails=0.1, blinds=0.1)) as stage:
            names = [routine.name for routine in stage.home.routines]
            for _ in range(8):
                await stage.run(*(stage.draw.choice(names) for _ in range(5)))
            stage.manner.fails = 0
            await until(lambda: not stage.live.down, 20)
            await stage.quiet()
            for name, (home, there, up) in stage.stands().items():
                self.assertEqual((home, up), (there, True), name)
            self.assertIn("with 40 runs agree", stage.check())

    async def test_the_broker_is_started_anew(self) -> None:
        async with Stage(PATIENT) as stage:
            await stage.run("evening")
            stage.begin("film")
            stage.mosquitto.stop()
            await until(lambda: not stage.broker.is_up)
            stage.begin("wake")
            await asyncio.sleep(4.5)  # longer than the limit: no device is down for it
            stage.mosquitto.start()
            await stage.quiet()
            self.assertEqual([each.outcome for each in stage.ends.all], ["committed"] * 3)
            self.assertEqual(stage.live.counts["dead"], 0)
            self.assertIn("runs agree", stage.check())

    async def test_the_limit_begins_anew_with_the_broker(self) -> None:
        # The devices come back to the broker some time after the hub, or before it.
        async with Stage(PATIENT, Manner(late=0.2)) as stage:
            stage.begin("evening")
            await until(lambda: stage.live.out)
            stage.mosquitto.stop()  # the command is lost, and comes back short of the limit
            await asyncio.sleep(0.3)
            stage.mosquitto.start()
            await stage.quiet()
            self.assertEqual(stage.ends.all[0].outcome, "committed")
            self.assertEqual(stage.live.counts["dead"], 0)

    async def test_turned_while_the_broker_was_away(self) -> None:
        async with Stage() as stage:
            await stage.run("evening")
            stage.mosquitto.stop()
            stage.devices["lamp"].state["brightness"] = 200
            stage.mosquitto.start()
            await until(lambda: stage.live.counts["turned"] == 1)
            self.assertEqual(stage.stands()["lamp"], ("200", "200", True))

    async def test_late_answers_are_refused_by_number(self) -> None:
        async with Stage() as stage:
            late = stage.live.counts["late"]
            stage.live.answered(Go(0, 10_000, 1, Task.DRIVE, 1, 0), Worked())
            await until(lambda: stage.live.counts["late"] == late + 1)
            told, = await stage.run("evening")
            self.assertEqual(told.outcome, "committed")

    async def test_the_bridge_is_away(self) -> None:
        async with Stage() as stage:
            stage.sim.publish("zigbee2mqtt/bridge/state", '{"state":"offline"}', True)
            await until(lambda: not stage.house.links["zigbee2mqtt"].is_up)
            stage.begin("evening")
            await asyncio.sleep(0.3)
            self.assertFalse(stage.live.is_open)
            self.assertEqual(stage.live.shown()["away"], ["Zigbee2MQTT or the broker"])
            stage.sim.publish("zigbee2mqtt/bridge/state", '{"state":"online"}', True)
            await stage.quiet()
            self.assertEqual(stage.ends.all[0].outcome, "committed")

    async def test_stop_a_run(self) -> None:
        async with Stage() as stage:
            await stage.run("evening")
            number = stage.begin("film")
            await until(lambda: stage.live.is_open)
            self.assertTrue(stage.live.stop_run(number))
            self.assertFalse(stage.live.stop_run(999))
            await stage.quiet()
            self.assertEqual((stage.ends.all[-1].outcome, stage.ends.all[-1].cause_kind),
                             ("aborted", "stopped"))
            await until(lambda: not stage.live.down)
            await stage.quiet()
            for name, (home, there, up) in stage.stands().items():
                self.assertEqual((home, up), (there, True), name)
            self.assertEqual(stage.stands()["blinds"][0], "0")

    async def test_drain(self) -> None:
        async with Stage() as stage:
            stage.begin("film")
            await until(lambda: stage.live.is_open)
            await stage.close()
            self.assertEqual(stage.ends.all[-1].outcome, "committed")
            self.assertIsNone(stage.live.begin(0, "test"))
            await stage.open()
            self.assertEqual(stage.ledger.kept.waiting, [])

    async def test_a_stop_that_waits_for_nothing(self) -> None:
        async with Stage() as stage:
            await stage.run("evening")
            stage.begin("film")
            stage.begin("wake")
            await until(lambda: stage.live.out)
            await stage.live.stop(0.01)
            self.assertEqual({(each.outcome, each.cause) for each in stage.ends.all[1:]},
                             {("aborted", "the hub was stopped")})
            self.assertEqual(stage.live.down, set())  # what was passed over is probed
            for name, (home, there, up) in stage.stands().items():
                self.assertEqual((home, up), (there, True), name)
            self.assertEqual(stage.stands()["lamp"][0], "20")

    async def test_one_hub_a_folder(self) -> None:
        async with Stage() as stage:
            self.assertRaises(BlockingIOError, Ledger, stage.folder)

    async def test_a_kill(self) -> None:
        async with Stage() as stage:
            await stage.run("guests")
            number = stage.begin("half")
            stage.devices["door"].is_broken = True
            await until(lambda: stage.devices["shelf"].value in (98, 99))
            await stage.kill()
            self.assertIn(stage.devices["lamp"].value, (98, 99))  # half done
            stage.devices["door"].is_broken = False
            stage.ends.all.clear()
            await stage.open()
            self.assertEqual([each.number for each in stage.ledger.kept.waiting], [number])
            self.assertIn("lamp", stage.ledger.kept.half_done)
            self.assertTrue(stage.live.is_open)  # the same window
            self.assertEqual([each.number for each in stage.live.runs.values()], [1])
            await stage.quiet()
            self.assertEqual([each.outcome for each in stage.ends.all], ["committed"])
            self.assertEqual(stage.ends.all[0].trigger, number)
            self.assertEqual(stage.stands()["door"], ("locked", "locked", True))
            self.assertIn("runs agree", stage.check())

    async def test_too_many_of_a_routine(self) -> None:
        async with Stage() as stage:
            stage.live.is_paused = True
            for _ in range(10):
                self.assertIsNotNone(stage.live.begin(0, "test"))
            self.assertIsNone(stage.live.begin(0, "test"))
            stage.live.resume()
            await stage.quiet()

    async def test_a_trigger_that_is_too_old(self) -> None:
        text = HOME.replace("evening: {", "evening: {fresh: 0.2s, ")
        async with Stage(text) as stage:
            stage.live.is_paused = True
            stage.begin("evening")
            await asyncio.sleep(0.3)
            stage.live.resume()
            await until(lambda: stage.ends.all)
            self.assertEqual(stage.ends.all[0].outcome, "expired")


if __name__ == "__main__":
    unittest.main()
