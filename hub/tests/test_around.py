"""What stands around the hub: triggers, times, Home Assistant, kinds of devices, any bytes."""
import asyncio
import datetime
import json
import os
import random
import time
import unittest

from lazbendix_hub.broker import Broker
from lazbendix_hub.home import CronTrigger, SunTrigger, TopicTrigger
from lazbendix_hub.live import LiveHub
from lazbendix_hub.times import next_time, sun_time
from lazbendix_hub.triggers import matches
from tests.stage import HOME, Stage, until
from tests.whole import Whole

UTC = datetime.timezone.utc
TRIGGERED = """
limit: 5s
devices:
  lamp: {kind: dimmer}
  hall: {kind: motion}
  inside: {kind: thermometer}
  plug: {kind: plug}
routines:
  light: {do: [{set: lamp, to: on}], when: [{device: hall, to: motion}]}
  dark: {do: [{set: lamp, to: off}], when: [{device: hall, to: clear, after: 0.4s}]}
  cold: {do: [{set: plug, to: on}], when: [{device: inside, below: 18}]}
  button: {do: [{set: plug, to: off}],
           when: [{topic: z/button, property: action, payload: single}, {topic: z/any}]}
  later: {do: [{set: plug, to: on}], when: [{routine: button, after: 0.4s}]}
"""


class Triggered(unittest.IsolatedAsyncioTestCase):
    async def told(self, stage: Stage, least: int = 0) -> list[str]:
        """The routines that have ended, when all that was said is heard, and nothing runs."""
        await stage.heard()
        await until(lambda: len(stage.ends.all) >= least)
        await stage.quiet()
        names = [each.routine for each in stage.ends.all]
        stage.ends.all.clear()
        return names

    async def test_off_after_is_cancelled_by_a_new_motion(self) -> None:
        async with Stage(TRIGGERED.replace("after: 0.4s", "after: 3s")) as stage:
            hall, timers = stage.devices["hall"], stage.house.triggers.timers
            for value, count in ((1, 0), (0, 1), (1, 0)):  # the last one before the 3 s are over
                hall.turn(value)
                await stage.heard()
                self.assertEqual(len(timers), count)
            self.assertEqual(await self.told(stage, 2), ["light", "light"])
            hall.turn(0)
            self.assertEqual(await self.told(stage, 1), ["dark"])
            self.assertEqual(stage.devices["lamp"].value, 0)

    async def test_off_after_is_kept_over_a_restart(self) -> None:
        text = TRIGGERED.replace("after: 0.4s", "after: 4s")
        for is_turned in (False, True):
            async with Stage(text) as stage:
                hall = stage.devices["hall"]
                hall.turn(1)
                self.assertEqual(await self.told(stage, 1), ["light"])
                hall.turn(0)
                self.assertEqual(await self.told(stage), [])
                self.assertEqual(len(stage.house.triggers.timers), 1)
                await stage.kill()
                if is_turned:
                    hall.turn(1)  # while the hub is away
                await stage.open()
                self.assertEqual(len(stage.house.triggers.timers), 0 if is_turned else 1)
                if is_turned:
                    await asyncio.sleep(4.2)
                self.assertEqual(await self.told(stage, 0 if is_turned else 1),
                                 [] if is_turned else ["dark"])

    async def test_by_messages(self) -> None:
        async with Stage(TRIGGERED.replace("after: 0.4s", "after: 3s")) as stage:
            await stage.heard()  # so its subscriptions are there
            stage.sim.publish("z/button", '{"action": "double"}')
            stage.sim.publish("z/any", "x", True)
            stage.sim.publish("z/button", '{"action": "single"}')
            self.assertEqual(await self.told(stage, 2), ["button"] * 2)
            timers = stage.house.triggers.timers
            before = dict(timers)
            self.assertEqual(len(before), 1)
            stage.begin("button")  # puts off what is to be done later
            self.assertEqual(timers, {})
            self.assertEqual(await self.told(stage, 1), ["button"])
            self.assertEqual((len(timers), timers == before), (1, False))
            self.assertEqual(await self.told(stage, 1), ["later"])
            stage.sim.publish("lazbendix/routine/light/run", "run")
            stage.sim.publish("lazbendix/routine/light/run", "walk")
            self.assertEqual(await self.told(stage), ["light"])

    async def test_a_retained_command_begins_nothing(self) -> None:
        async with Stage(TRIGGERED) as stage:
            await stage.heard()  # so its subscriptions are there
            stage.sim.publish("lazbendix/routine/light/run", "run", True)
            self.assertEqual(await self.told(stage), ["light"])
            await stage.close()
            await stage.open()
            await asyncio.sleep(0.2)
            self.assertEqual(await self.told(stage), [])

    async def test_below(self) -> None:
        async with Stage(TRIGGERED) as stage:
            inside = stage.devices["inside"]
            for degrees, names in ((20, []), (17.9, ["cold"]), (17, []), (19, []), (10, ["cold"])):
                inside.turn(inside.kind.of_word(str(degrees)))
                self.assertEqual(await self.told(stage), names, degrees)

    def test_messages(self) -> None:
        action = TopicTrigger("a", "single", "action")
        for payload, is_it in ((b'{"action": "single"}', True), (b'{"action": 1}', False),
                               (b"single", False), (b"[]", False), (b"\xff", False)):
            self.assertEqual(matches(action, payload), is_it, payload)
        self.assertTrue(matches(TopicTrigger("a", "21.5", "t"), b'{"t": 21.5}'))
        self.assertTrue(matches(TopicTrigger("a", None, None), b"\x00\xff"))
        self.assertFalse(matches(TopicTrigger("a", "x", None), b"xx"))


class Times(unittest.TestCase):
    def test_the_sun(self) -> None:
        # Of the almanacs, to three minutes: Berlin, Sydney, Quito, Los Angeles.
        for day, there, rise, sets in (
                ((2026, 6, 21), (52.52, 13.405), (2, 43), (19, 33)),
                ((2026, 12, 21), (52.52, 13.405), (7, 15), (14, 54)),
                ((2026, 3, 20), (-0.18, -78.47), (11, 18), (23, 25)),
                ((2026, 1, 1), (34.05, -118.24), (14, 58), (24, 54)),
                ((2026, 12, 21), (-33.87, 151.21), (-6, 41), (9, 5))):
            for hours_minutes, is_rise in ((rise, True), (sets, False)):
                found = sun_time(datetime.date(*day), *there, is_rise)
                assert found is not None
                wanted = datetime.datetime(*day, tzinfo=UTC) + datetime.timedelta(
                    hours=hours_minutes[0], minutes=hours_minutes[1])
                self.assertLess(abs((found - wanted).total_seconds()), 240, (day, found, wanted))
        self.assertIsNone(sun_time(datetime.date(2026, 12, 21), 78, 15, True))

    def test_summer_time(self) -> None:
        before = os.environ.get("TZ")
        os.environ["TZ"] = "Europe/Berlin"
        time.tzset()
        try:
            for day, utc in ((28, 5), (29, 4), (30, 4)):  # it begins on 29 March 2026
                after = datetime.datetime(2026, 3, day - 1, 20, 0, tzinfo=UTC)
                found = next_time(CronTrigger("30 6 * * *"), after, None)
                self.assertEqual(found, datetime.datetime(2026, 3, day, utc, 30, tzinfo=UTC))
        finally:
            os.environ.pop("TZ") if before is None else os.environ.update(TZ=before)
            time.tzset()

    def test_next(self) -> None:
        after = datetime.datetime(2026, 12, 1, 6, 30, tzinfo=UTC)
        self.assertEqual(next_time(CronTrigger("30 6 * * *"), after, None),
                         datetime.datetime(2026, 12, 2, 6, 30, tzinfo=UTC))
        moment = after
        for _ in range(50):  # each one later than the one before, and a day away from it
            found = next_time(SunTrigger(False, -1800), moment, (52.5, 13.4))
            assert found is not None
            self.assertGreater(found, moment)
            if moment != after:
                self.assertLess(abs((found - moment).total_seconds() - 86400), 300)
            moment = found
        polar = next_time(SunTrigger(True, 0), after, (78, 15))
        assert polar is not None
        self.assertEqual(polar.month, 2)


class HomeAssistant(unittest.IsolatedAsyncioTestCase):
    async def test_discovery(self) -> None:
        text = HOME.replace("half: {", "half: {label: 'Half \"done\"', ")
        async with Whole(text) as whole:
            heard: dict[str, list[bytes]] = {}
            seer = Broker("seer", "")
            seer.connect("127.0.0.1", whole.mosquitto.port)
            await seer.up.wait()

            def hear(topic: str, payload: bytes, is_retained: bool) -> None:
                heard.setdefault(topic, []).append(payload)
            names = [routine.name for routine in whole.home.routines]
            topics = [f"homeassistant/{part}/lazbendix/{name}/config" for each in names
                      for part, name in (("button", f"{each}_run"), ("sensor", f"{each}_outcome"),
                                         ("event", f"{each}_ended"))]
            topics += [f"homeassistant/binary_sensor/lazbendix/{device.name}_up/config"
                       for device in whole.home.devices]
            for topic in [*topics, "lazbendix/status", "lazbendix/device/door/up",
                          "lazbendix/routine/half", "lazbendix/routine/half/event"]:
                seer.subscribe(topic, hear)
            await until(lambda: all(topic in heard for topic in topics))  # they are retained
            unique = set()
            for topic in topics:
                told = json.loads(heard[topic][0])
                unique.add(told["unique_id"])
                self.assertEqual(told["availability_topic"], "lazbendix/status")
                part = topic.split("/")[1]
                wanted = {"button": {"command_topic", "payload_press"},
                          "sensor": {"state_topic", "options", "json_attributes_topic"},
                          "event": {"state_topic", "event_types"},
                          "binary_sensor": {"state_topic", "payload_on", "payload_off"}}[part]
                self.assertLessEqual(wanted | {"name", "device", "origin"}, told.keys())
            self.assertEqual(len(unique), len(topics))
            whole.devices["door"].is_broken = True
            seer.publish("lazbendix/routine/half/run", "run")  # the button
            await until(lambda: "lazbendix/routine/half/event" in heard)
            told = json.loads(heard["lazbendix/routine/half/event"][0])
            self.assertEqual((told["event_type"], told["outcome"]), ("aborted", "aborted"))
            self.assertIn("door did not answer", told["cause"])
            await until(lambda: heard["lazbendix/device/door/up"][-1] == b"OFF")
            count = len(heard[topics[0]])
            seer.publish("homeassistant/status", "online")
            await until(lambda: len(heard[topics[0]]) > count)
            whole.write(text.replace("  film:", "  movie:"))
            whole.daemon.reload_soon()
            await until(lambda: heard["homeassistant/button/lazbendix/film_run/config"][-1] == b"")
            whole.daemon.broker.client._sock_close()  # as a crash: the broker says so
            await until(lambda: b"offline" in heard["lazbendix/status"])
            await until(lambda: heard["lazbendix/status"][-1] == b"online", 20)
            seer.close()


class Bytes(unittest.IsolatedAsyncioTestCase):
    async def test_any_bytes_on_every_topic(self) -> None:
        async with Whole() as whole:
            live: LiveHub = whole.live
            draw = random.Random(2)
            topics = list(whole.daemon.broker.heard)
            pieces = [b"{", b"}", b'"state"', b'"brightness"', b":", b"1e999", b"null", b"[", b"]",
                      b",", b"true", b"-1", b'"ON"', b"\xff\xfe", b"\x00", b'"color"', b"offline",
                      b'{"x": 1, "y": 2}', b"[" * 5000, b"9" * 5000, b'{"brightness": NaN}']
            for _ in range(3000):
                payload = b"".join(draw.choices(pieces, k=draw.randint(0, 8)))
                if draw.random() < 0.2:
                    payload = draw.randbytes(draw.randint(0, 60))
                topic = draw.choice(topics)
                whole.sim.client.publish(topic, payload, 0, draw.random() < 0.1)
            for topic in topics:
                whole.sim.client.publish(topic, b"", 0, True)  # no word of it is kept
            whole.sim.publish("zigbee2mqtt/bridge/state", '{"state": "online"}')
            for device in whole.devices.values():
                device.come()
            await until(lambda: live._is_reachable(), 20)
            await until(lambda: not live.down, 30)
            await whole.quiet()
            self.assertEqual(whole.daemon.broker.failed, 0)
            whole.sim.client.publish(topics[0], b"x" * 1_000_000)
            await until(lambda: whole.daemon.broker.dropped == 1)  # and all before it were heard
            await whole.quiet()
            self.assertTrue(whole.daemon.is_healthy())
            self.assertEqual((await whole.ask("/run/evening", "POST"))[0], 202)
            await whole.quiet()
            self.assertEqual((await whole.ask("/history"))[1][0]["outcome"], "committed")


if __name__ == "__main__":
    unittest.main()
