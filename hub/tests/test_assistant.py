"""Devices over Home Assistant's WebSocket API, with a server that speaks as its documents say."""
import asyncio
import json
import random
import tempfile
import unittest
from typing import Any

from lazbendix_hub import home_assistant
from lazbendix_hub.broker import Broker
from lazbendix_hub.home_assistant import HomeAssistant, service_of, socket_url, told_of
from lazbendix_hub.house import House
from lazbendix_hub.kinds import Payload
from lazbendix_hub.ledger import Ledger, Records
from lazbendix_hub.mosquitto import free_port
from lazbendix_hub.reading import read_home
from tests.assistant import TOKEN, Assistant, Attributes
from tests.stage import Ends, checked, read, until

HEAD = "broker: off\nhome-assistant: {url: 'http://127.0.0.1:PORT', token: TOKEN}\n"
HOME = """
limit: 2s
devices:
  lamp: {entity: light.hall, kind: dimmer}
  shelf: {entity: light.shelf, kind: switch}
  glow: {entity: light.sofa, kind: colour}
  white: {entity: light.desk, kind: colour-temperature}
  plug: {entity: switch.pump, kind: plug}
  water: {entity: valve.garden, kind: valve}
  door: {entity: lock.front, kind: lock}
  blinds: {entity: cover.south, kind: blinds, limit: 4s}
  heat: {entity: climate.bath, kind: climate}
  manner: {entity: climate.bath, kind: choice, values: {off: "off", heat: heat}}
  fan: {entity: fan.attic, kind: number, property: percentage}
  level: {entity: input_number.level, kind: number, low: 0, high: 10, step: 0.5}
  mode: {entity: select.mode, kind: choice, values: {eco: Eco, warm: "Extra warm"}}
  window: {entity: binary_sensor.window, kind: contact}
  hall: {entity: binary_sensor.hall, kind: motion}
  inside: {entity: sensor.inside, kind: thermometer}
routines:
  up:
    do:
      - {check: window, to: shut}
      - {set: lamp, to: 40%}
      - {set: shelf, to: on}
      - {set: glow, to: red}
      - {set: white, to: 250}
      - {set: plug, to: on}
      - {set: water, to: open}
      - {set: door, to: unlocked}
      - {set: blinds, to: 70}
      - {set: heat, to: 21.5}
      - {set: manner, to: heat}
      - {set: fan, to: 33}
      - {set: level, to: 7.5}
      - {set: mode, to: warm}
  down: {do: [{set: lamp, to: off}, {set: shelf, to: off}, {set: plug, to: off},
              {set: water, to: shut}, {set: door, to: locked}, {set: blinds, to: shut},
              {set: manner, to: off}, {set: mode, to: eco}]}
  half: {do: [{set: lamp, to: 99}, {set: plug, to: on}, {set: door, to: locked}]}
  light: {do: [{set: shelf, to: on}], when: [{device: hall, to: motion}]}
  cold: {do: [{set: plug, to: on}], when: [{device: inside, below: 18}]}
  night: {do: [{set: shelf, to: off}], when: [{entity: input_button.night}]}
"""
STATES: dict[str, tuple[str, Attributes]] = {
    "light.hall": ("off", {"brightness": None}), "light.shelf": ("off", {}),
    "light.sofa": ("on", {"xy_color": [0.3127, 0.329]}),
    "light.desk": ("on", {"color_temp_kelvin": 2700}), "switch.pump": ("off", {}),
    "valve.garden": ("closed", {}), "lock.front": ("locked", {}),
    "cover.south": ("closed", {"current_position": 0}),
    "climate.bath": ("off", {"temperature": 15, "current_temperature": 17.2}),
    "fan.attic": ("off", {"percentage": 0}), "input_number.level": ("0.0", {}),
    "select.mode": ("Eco", {"options": ["Eco", "Extra warm"]}),
    "binary_sensor.window": ("off", {"device_class": "window"}),
    "binary_sensor.hall": ("off", {"device_class": "motion"}),
    "sensor.inside": ("20.4", {"unit_of_measurement": "°C"}),
    "input_button.night": ("2026-11-30T22:00:00+00:00", {})}


class Scene:
    """`async with Scene() as scene`: the server, and a hub over it; no broker."""

    def __init__(self, states: dict[str, tuple[str, Attributes]] | None = None) -> None:
        self.port = free_port()
        self.home = read(HEAD.replace("PORT", str(self.port)).replace("TOKEN", TOKEN) + HOME)
        self.there = Assistant(self.port, {**STATES, **(states or {})})
        self.room = tempfile.TemporaryDirectory()
        self.ends = Ends()

    async def __aenter__(self) -> "Scene":
        self.before = home_assistant.BACK_OFF
        home_assistant.BACK_OFF = (0.05, 0.2)
        await self.there.start()
        assert self.home.assistant is not None
        self.link = HomeAssistant(self.home.assistant.url, self.home.assistant.token)
        self.link.begin()
        await self.open()
        return self

    async def open(self) -> None:
        """A life of the hub."""
        self.ledger = Ledger(self.room.name)
        self.house = House(self.home, Broker("none", ""), self.ledger, Records(self.room.name),
                           self.link)
        await self.house.open(self.ledger.kept, [self.ends])
        self.live = self.house.live

    async def kill(self) -> None:
        """Its end, at any moment; the connection is that of the next life too."""
        assert self.house.task is not None
        self.house.task.cancel()
        await asyncio.gather(self.house.task, return_exceptions=True)
        for out in self.live.out.values():
            if out.task is not None:
                out.task.cancel()
        self.house.triggers.end()
        self.link.forget()
        self.live.calls.core.log.fail(OSError("killed"))
        self.live.calls.close()
        self.ledger.lock.close()

    async def __aexit__(self, *why: Any) -> None:
        await self.live.stop(5)
        await self.house.close()
        await self.link.close()
        await self.there.stop()
        self.ledger.close()
        self.room.cleanup()
        home_assistant.BACK_OFF = self.before

    async def run(self, name: str) -> Any:
        """Begins a routine; its end."""
        names = [routine.name for routine in self.home.routines]
        trigger = self.live.begin(names.index(name), "test")
        assert trigger is not None
        await self.quiet()
        return next(each for each in self.ends.all
                    if each.trigger == trigger.accepted.number)

    async def quiet(self) -> None:
        await until(lambda: not self.live.is_open and not self.live.queue, 20)

    def state(self, entity: str, attribute: str = "") -> Any:
        """What the entity shows."""
        of = self.there.states[entity]
        return of["attributes"][attribute] if attribute else of["state"]


class Entities(unittest.IsolatedAsyncioTestCase):
    async def test_each_kind_of_entity(self) -> None:
        async with Scene() as scene:
            told = await scene.run("up")
            self.assertEqual((told.outcome, told.cause), ("committed", ""))
            for entity, attribute, value in (
                    ("light.hall", "brightness", 102), ("light.hall", "", "on"),
                    ("light.shelf", "", "on"), ("light.sofa", "xy_color", [0.68, 0.31]),
                    ("light.desk", "color_temp_kelvin", 4000), ("switch.pump", "", "on"),
                    ("valve.garden", "", "open"), ("lock.front", "", "unlocked"),
                    ("cover.south", "current_position", 70), ("climate.bath", "temperature", 21.5),
                    ("climate.bath", "", "heat"), ("fan.attic", "percentage", 33),
                    ("input_number.level", "", "7.5"), ("select.mode", "", "Extra warm")):
                self.assertEqual(scene.state(entity, attribute), value, (entity, attribute))
            self.assertEqual((await scene.run("down")).outcome, "committed")
            self.assertEqual(scene.state("light.hall"), "off")
            self.assertEqual((await scene.run("down")).outcome, "committed")  # all is there already
            self.assertEqual(scene.live.counts["dead"], 0)
            self.assertIn("with 3 runs agree", checked(scene.room.name))
            self.assertEqual(scene.link.failed, 0)

    async def test_a_service_that_fails_and_one_that_does_nothing(self) -> None:
        async with Scene() as scene:
            await scene.run("down")
            for wrong in (scene.there.failing, scene.there.silent):
                await scene.there.put("lock.front", "unlocked")
                await until(lambda: scene.live.calls.stand(scene.home.numbers["door"]).value == 0)
                wrong.add("lock.front")
                told = await scene.run("half")
                self.assertEqual((told.outcome, told.cause_kind), ("aborted", "no-answer"))
                self.assertEqual(told.took < 2000, wrong is scene.there.failing, told.took)
                self.assertEqual(scene.state("light.hall"), "off")  # taken back
                self.assertEqual(scene.state("switch.pump"), "off")
                wrong.clear()
                await until(lambda: not scene.live.down, 10)
                await scene.quiet()
            self.assertEqual((await scene.run("half")).outcome, "committed")
            self.assertRegex(checked(scene.room.name), "runs agree")

    async def test_unavailable_and_turned_by_hand(self) -> None:
        async with Scene() as scene:
            await scene.there.put("lock.front", "unavailable")
            await until(lambda: scene.live.down)
            self.assertEqual((await scene.run("half")).outcome, "aborted")
            await scene.there.put("lock.front", "unlocked")
            await until(lambda: not scene.live.down, 10)
            await scene.quiet()
            self.assertEqual(scene.state("lock.front"), "locked")  # as the home has it
            await scene.there.put("light.hall", "on", brightness=200)
            lamp = scene.home.numbers["lamp"]
            await until(lambda: scene.live.calls.stand(lamp).value == 200)
            await scene.there.put("binary_sensor.window", "on")
            window = scene.home.numbers["window"]
            await until(lambda: scene.live.calls.stand(window).value == 0)  # it is open
            told = await scene.run("up")
            self.assertEqual((told.outcome, told.cause_kind), ("aborted", "check"))
            self.assertRegex(checked(scene.room.name), "runs agree")

    async def test_home_assistant_is_started_anew(self) -> None:
        async with Scene() as scene:
            scene.there.late = 0.2
            names = [routine.name for routine in scene.home.routines]
            scene.live.begin(names.index("down"), "test")
            await until(lambda: scene.live.out)
            await scene.there.stop()
            await until(lambda: not scene.link.link.is_up)
            await asyncio.sleep(2.5)  # longer than a limit: nobody is down for it
            scene.there.mode = "STARTING"
            await scene.there.start()
            await until(lambda: scene.there.sockets)
            await asyncio.sleep(0.1)
            self.assertFalse(scene.link.link.is_up)
            scene.there.mode = "RUNNING"
            await scene.there.fire("homeassistant_started", {})
            await scene.quiet()
            self.assertEqual([each.outcome for each in scene.ends.all], ["committed"])
            self.assertEqual(scene.live.counts["dead"], 0)

    async def test_a_kill(self) -> None:
        async with Scene() as scene:
            scene.there.late = 1.0
            names = [routine.name for routine in scene.home.routines]
            scene.live.begin(names.index("half"), "test")
            await until(lambda: scene.there.calls)
            await scene.kill()
            begin = asyncio.get_running_loop().time()
            await scene.open()
            self.assertTrue(scene.live.is_open)
            before = len(scene.there.calls)
            await until(lambda: len(scene.there.calls) > before, 20)
            waited = asyncio.get_running_loop().time() - begin
            self.assertGreater(waited, 2)  # the limit: a call of the former life has ended
            scene.there.late = 0.01
            await scene.quiet()
            self.assertEqual([each.outcome for each in scene.ends.all], ["committed"])
            self.assertIn("1 windows with 1 runs agree", checked(scene.room.name))

    async def test_what_begins_a_routine(self) -> None:
        async with Scene({"input_button.night": ("unknown", {})}) as scene:
            await until(lambda: scene.link.has_states)
            await scene.there.put("input_button.night", "2026-12-01T22:00:00+00:00")
            await until(lambda: scene.ends.all)
            await scene.there.put("binary_sensor.hall", "on")
            await until(lambda: len(scene.ends.all) == 2)
            await scene.there.put("sensor.inside", "17.5")
            await until(lambda: len(scene.ends.all) == 3)
            await scene.there.put("input_button.night", "unavailable")
            await scene.there.put("input_button.night", "2026-12-01T22:00:00+00:00")
            await asyncio.sleep(0.1)
            self.assertEqual([each.routine for each in scene.ends.all], ["night", "light", "cold"])
            self.assertEqual(scene.ends.all[0].source, "entity input_button.night")

    async def test_any_message(self) -> None:
        async with Scene() as scene:
            draw = random.Random(1)
            event = {"event_type": "state_changed", "data": {
                "entity_id": "light.hall", "new_state": {
                    "state": "on", "attributes": {"brightness": 5}}}}
            parts: list[object] = [None, 1, "x", [], {}, True, -1e300, "unavailable", [1]]

            def spoil(value: object) -> object:
                if draw.random() < 0.15:
                    return draw.choice(parts)
                if isinstance(value, dict):
                    return {key: spoil(each) for key, each in value.items()}
                return value
            await until(lambda: scene.link.has_states)
            socket, before = next(iter(scene.there.sockets)), scene.link.got
            with self.assertLogs("lazbendix.home_assistant", "ERROR"):
                for _ in range(500):
                    told = {"id": 1, "type": draw.choice(["event", "result"]), "event": event}
                    await socket.send_str(json.dumps(spoil(told)))
                for text in ("", "[[", "\x00", "[" * 100_000, "9" * 10_000, '"x"', "[null]"):
                    await socket.send_str(text)
                await socket.send_bytes(b"\xff\xfe")
                await until(lambda: scene.link.got - before >= 507)
            await scene.there.put("light.hall", "on", brightness=77)
            await until(lambda: scene.house.drivers[scene.home.numbers["lamp"]].value == 77)
            await until(lambda: not scene.live.down, 10)
            self.assertEqual((await scene.run("half")).outcome, "committed")

    async def test_a_wrong_token(self) -> None:
        there = Assistant(free_port(), STATES)
        await there.start()
        link = HomeAssistant(f"http://127.0.0.1:{there.port}/", "wrong")
        with self.assertLogs("lazbendix.home_assistant", "ERROR") as logs:
            link.begin()
            await until(lambda: there.refused)
            await asyncio.sleep(0.1)
        self.assertIn("refuses the token: Invalid access token", logs.output[0])
        self.assertEqual(there.refused, 1)  # and not at once again
        await link.close()
        await there.stop()


class Words(unittest.TestCase):
    def test_services(self) -> None:
        cases: tuple[tuple[str, Payload, str, Payload], ...] = (
                ("light", {"power": "OFF"}, "turn_off", {}),
                ("light", {"power": "ON", "brightness": 3}, "turn_on", {"brightness": 3}),
                ("light", {"color_temp": 250}, "turn_on", {"color_temp_kelvin": 4000}),
                ("switch", {"state": "closed"}, "turn_off", {}),
                ("input_boolean", {"state": "open"}, "turn_on", {}),
                ("cover", {"state": "open"}, "open_cover", {}),
                ("cover", {"current_position": 0}, "set_cover_position", {"position": 0}),
                ("fan", {"state": "off"}, "turn_off", {}))
        for domain, payload, service, data in cases:
            self.assertEqual(service_of(domain, payload), (service, data))
        self.assertEqual(socket_url("https://hub.example/"), "wss://hub.example/api/websocket")
        self.assertEqual(told_of("sensor", "nan", {})["state"], "nan")
        self.assertNotIn("number", told_of("sensor", "nan", {}))

    def test_mistakes(self) -> None:
        head = HEAD.replace("PORT", "8123")
        rest = "routines: {r: {do: [{set: a, to: on}]}}\n"
        for text, line, part in (
                (head + "devices:\n  a: {entity: lihgt, kind: switch}\n" + rest, 4,
                 "as light.hall"),
                (head + "devices:\n  a: {entity: sensor.x, kind: switch}\n" + rest, 4,
                 "a switch is an entity of switch, light"),
                (head + "devices:\n  a: {kind: switch}\n" + rest, 4, "`broker` is off"),
                (head + "devices:\n  a: {kind: switch, maker: home-asistant}\n" + rest, 4,
                 "do you mean `home-assistant`?"),
                (head + "devices:\n  a: {entity: light.a, kind: switch}\n"
                 + rest.replace("]}}", "], when: [{topic: x}]}}"), 5, "`broker` is off"),
                ("devices:\n  a: {entity: light.a, kind: switch}\n" + rest, 2,
                 "the file wants `home-assistant:"),
                ("home-assistant: {url: x, token: y}\n", 1, "an address as"),
                ("home-assistant: {url: 'http://x'}\n", 1, "wants a `token`")):
            found = read_home(text)[1]
            self.assertTrue(any(each.line == line and part in each.text for each in found),
                            (text, [str(each) for each in found]))


if __name__ == "__main__":
    unittest.main()
