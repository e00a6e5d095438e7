"""Any other device over MQTT: plain payloads and JSON, retained states, availability."""
import asyncio
import json
import unittest

from lazbendix_hub.broker import Broker
from lazbendix_hub.reading import read_home
from tests.stage import Stage, read, until

HOME = """
limit: 2s
devices:
  pump: {maker: mqtt, kind: switch, topic: garden/pump, set: garden/pump/set,
         values: {off: "0", on: ["1", "running"]}, availability: garden/up, offline: away}
  level: {maker: mqtt, kind: number, topic: tank/state, set: tank/set, property: level, json: true}
  strip: {maker: mqtt, kind: dimmer, topic: strip/state, set: strip/set}
  gate: {maker: mqtt, kind: contact, topic: gate, property: open,
         values: {open: "true", shut: "false"}}
routines:
  water:
    do: [{check: gate, to: shut}, {set: pump, to: on}, {set: level, to: 40}, {set: strip, to: 9}]
  rest: {do: [{set: pump, to: off}, {set: strip, to: off}, {set: level, to: 0}]}
"""


class Things:
    """The devices. `commands` has what each was sent, those of `broken` do nothing. A command that
    changes nothing is not answered, as by ESPHome."""

    def __init__(self, broker: Broker) -> None:
        self.broker = broker
        self.commands: list[tuple[str, str]] = []
        self.broken: set[str] = set()
        self.last: dict[str, bytes] = {}
        for topic in ("garden/pump/set", "tank/set", "strip/set"):
            broker.subscribe(topic, self.heard)
        broker.publish("garden/pump", "0", True)
        broker.publish("tank/state", '{"level": 0}', True)
        broker.publish("strip/state", '{"state": "OFF"}', True)
        broker.publish("gate", '{"open": false, "battery": 90}', True)

    def heard(self, topic: str, payload: bytes, is_retained: bool) -> None:
        self.commands.append((topic, payload.decode()))
        if topic in self.broken or self.last.get(topic) == payload:
            return
        self.last[topic] = payload
        if topic == "garden/pump/set":
            self.broker.publish("garden/pump", "running" if payload == b"1" else "0", True)
        else:
            self.broker.publish(topic.replace("/set", "/state"), payload.decode(), True)


class Plain(unittest.IsolatedAsyncioTestCase):
    async def test_each_of_them(self) -> None:
        stage = Stage(HOME, makes_devices=Things)
        async with stage:
            things = stage.things
            assert isinstance(things, Things)
            told, = await stage.run("water")
            self.assertEqual((told.outcome, told.cause), ("committed", ""))
            self.assertEqual([(topic, json.loads(text)) for topic, text in things.commands], [
                ("garden/pump/set", 1), ("tank/set", {"level": 40}),
                ("strip/set", {"state": "ON", "brightness": 9})])
            for _ in range(2):
                self.assertEqual((await stage.run("rest"))[0].outcome, "committed")
            self.assertEqual((stage.live.counts["dead"], len(things.commands)), (0, 9))
            things.broken.add("tank/set")
            told, = await stage.run("water")
            self.assertEqual((told.outcome, told.cause_kind), ("aborted", "no-answer"))
            self.assertEqual(things.commands[-1][0], "garden/pump/set")  # taken back
            self.assertEqual(things.commands[-1][1], "0")
            things.broken.clear()
            await until(lambda: not stage.live.down, 20)
            await stage.quiet()
            things.broker.publish("garden/up", "away", True)
            await until(lambda: stage.live.down)
            things.broker.publish("garden/up", "online", True)
            await until(lambda: not stage.live.down, 20)
            await stage.quiet()
            things.broker.publish("gate", '{"open": true}', True)
            await until(lambda: stage.live.calls.stand(stage.home.numbers["gate"]).value == 0)
            told, = await stage.run("water")
            self.assertEqual((told.outcome, told.cause_kind), ("aborted", "check"))
            for payload in (b"\xff", b"", b"[]", b'{"open": {}}', b"1e999", b"[" * 9000):
                for topic in ("garden/pump", "tank/state", "strip/state", "gate", "garden/up"):
                    stage.sim.client.publish(topic, payload)
            await asyncio.sleep(0.3)
            self.assertEqual(stage.broker.failed, 0)
            self.assertIn("runs agree", stage.check())

    def test_mistakes(self) -> None:
        for old, new, line, part in (
                ("set: tank/set, ", "", 6, "has no `set`"),
                ("property: level, ", "", 6, "no `property`"),
                ('values: {open: "true"', 'values: {opne: "true"', 9, "do you mean `open`?"),
                ('["1", "running"]', '["1", {}]', 5, "a list of words"),
                ("set: strip/set", "set: strip/#", 7, "a topic without")):
            self.assertIn(old, HOME)
            found = read_home(HOME.replace(old, new))[1]
            self.assertTrue(any(each.line == line and part in each.text for each in found),
                            (new, [str(each) for each in found]))
        self.assertTrue(read(HOME).devices[0].is_sleepy)


if __name__ == "__main__":
    unittest.main()
