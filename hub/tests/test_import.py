"""A home.yaml of what is announced."""
import asyncio
import json
import random
import tempfile
import unittest

from lazbendix_hub.broker import Broker
from lazbendix_hub.home import BrokerPlace
from lazbendix_hub.importing import Announced, entities, imported, imported_entities, listened
from lazbendix_hub.mosquitto import Mosquitto, free_port
from lazbendix_hub.reading import read_home
from tests.assistant import TOKEN, Assistant, Attributes
from tests.stage import want_mosquitto


def thing(name: str, *exposes: object) -> dict[str, object]:
    """A device as bridge/devices has it."""
    return {"friendly_name": name, "type": "Router", "definition": {"exposes": list(exposes)}}


STATE = {"name": "state", "property": "state"}
ZIGBEE = [
    {"friendly_name": "Coordinator", "type": "Coordinator", "definition": None},
    thing("Hall/Lamp", {"type": "light", "features": [
        STATE, {"name": "brightness"}, {"name": "color_temp", "value_min": 150, "value_max": 454},
        {"name": "color_xy", "property": "color"}]}),
    thing("0x00158d", {"type": "binary", "name": "contact"}, {"type": "numeric", "name": "battery"},
          {"type": "numeric", "name": "temperature"}),
    thing("Wall", {"type": "switch", "endpoint": "l1",
                   "features": [{"name": "state", "property": "state_l1"}]},
          {"type": "switch", "endpoint": "l2",
           "features": [{"name": "state", "property": "state_l2"}]}),
    thing("Blinds", {"type": "cover", "features": [{"name": "position"}]}),
    thing("Bath", {"type": "climate", "features": [
        {"name": "current_heating_setpoint", "value_min": 5, "value_max": 35, "value_step": 0.5}]}),
    thing("Door", {"type": "lock", "features": [STATE]}),
    thing('Odd "name" <b>/#', {"type": "lock"}),
]
# As Home Assistant's documents have the messages of discovery, some with abbreviations.
DISCOVERY: list[tuple[str, dict[str, object]]] = [
    ("switch", {"name": "Irrigation", "command_topic": "garden/switch/set",
                "state_topic": "garden/switch/state", "payload_off": "0", "payload_on": "1",
                "availability_topic": "garden/up", "payload_not_available": "away"}),
    ("light", {"name": "Strip", "schema": "json", "brightness": True,
               "state_topic": "strip/state", "command_topic": "strip/set"}),
    ("binary_sensor", {"name": "Gate", "device_class": "door", "stat_t": "~/state", "~": "gate",
                       "val_tpl": "{{ value_json.open }}", "pl_on": "yes", "pl_off": "no"}),
    ("sensor", {"name": "Cellar", "device_class": "temperature", "state_topic": "cellar/state",
                "value_template": "{{ value_json['t'] | round(1) }}"}),
    ("lock", {"name": "Shed", "state_topic": "shed/state", "command_topic": "shed/set"}),
    ("number", {"name": "Speed", "state_topic": "speed", "command_topic": "speed/set", "min": 0,
                "max": 7}),
    ("cover", {"name": "Roof", "position_topic": "roof", "set_position_topic": "roof/set"}),
    ("switch", {"name": "Odd", "state_topic": "odd", "command_topic": "odd/set",
                "value_template": "{{ 'ON' if value_json.a > 3 else 'OFF' }}"}),
    ("switch", {"name": "Own", "state_topic": "x", "command_topic": "y",
                "origin": {"name": "Zigbee2MQTT"}}),
    ("camera", {"name": "Camera", "topic": "x"})]
ENTITIES: dict[str, tuple[str, Attributes]] = {
    "light.hall": ("on", {"friendly_name": "Hall Lamp",
                          "supported_color_modes": ["color_temp", "xy"]}),
    "switch.pump": ("off", {}), "sun.sun": ("above_horizon", {}),
    "cover.south": ("open", {"current_position": 3, "friendly_name": "South"}),
    "cover.garage": ("open", {"friendly_name": "Garage"}),
    "climate.bath": ("heat", {"min_temp": 7, "max_temp": 35, "target_temp_step": 0.5,
                              "friendly_name": "Bath"}),
    "select.mode": ("Eco", {"options": ["Eco", "Extra warm"], "friendly_name": "Mode"}),
    "binary_sensor.door": ("off", {"device_class": "door", "friendly_name": "Front door"}),
    "binary_sensor.update": ("off", {"device_class": "update"})}
TASMOTA: list[dict[str, object]] = [
    {"t": "pump", "fn": ["Garden pump", None], "rl": [1, 0]},
    {"t": "strip", "fn": ["Strip"], "rl": [1, 1, 2], "lt_st": 1}]


class Imports(unittest.IsolatedAsyncioTestCase):
    async def announced(self) -> str:
        """The home.yaml of what is announced at a broker."""
        want_mosquitto()
        with tempfile.TemporaryDirectory() as folder:
            mosquitto = Mosquitto(folder)
            mosquitto.start()
            seer = Broker("bridge", "")
            seer.connect("127.0.0.1", mosquitto.port)
            await seer.up.wait()
            seer.publish("zigbee2mqtt/bridge/devices", json.dumps(ZIGBEE), True)
            for told in TASMOTA:
                seer.publish(f"tasmota/discovery/{told['t']}/config", json.dumps(told), True)
            for at, (component, told) in enumerate(DISCOVERY):
                node = "node/" if at % 2 else ""
                seer.publish(f"homeassistant/{component}/{node}d{at}/config", json.dumps(told),
                             True)
            await asyncio.sleep(0.2)
            place = BrokerPlace(port=mosquitto.port)
            found = await listened(place, "zigbee2mqtt", 0.5)
            seer.close()
            mosquitto.stop()
        assert found is not None
        return imported(place, "zigbee2mqtt", found)

    async def test_what_is_announced(self) -> None:
        text = await self.announced()
        home, mistakes = read_home(text)
        assert home is not None, (text, mistakes)
        names = {device.name: device for device in home.devices}
        self.assertEqual(sorted(names), [
            "bath", "blinds", "cellar", "d_0x00158d_contact", "d_0x00158d_temperature", "door",
            "garden_pump", "gate", "hall_lamp", "hall_lamp_colour", "hall_lamp_white",
            "irrigation", "roof", "shed", "speed", "strip", "strip_1", "strip_2", "strip_3",
            "wall_l1", "wall_l2"])
        irrigation = names["irrigation"]
        self.assertEqual((irrigation.topic, irrigation.kind.payload(1)),
                         ("garden/switch/state", {"value": "1"}))
        assert irrigation.wire is not None and names["gate"].wire is not None
        self.assertEqual((irrigation.wire.set, irrigation.wire.availability,
                          irrigation.wire.offline), ("garden/switch/set", "garden/up", "away"))
        self.assertEqual((names["gate"].topic, names["gate"].wire.prop), ("gate/state", "open"))
        self.assertEqual(names["gate"].kind.value({"value": "yes"}),
                         names["gate"].kind.of_word("open"))
        self.assertEqual(names["wall_l2"].kind.payload(1), {"state_l2": "ON"})
        self.assertEqual(names["strip_2"].kind.payload(1), {"POWER2": "ON"})
        self.assertEqual(names["bath"].kind.of_word("35"), 60)
        self.assertIn("  # `topic` of device `odd_name_b`", text)

    async def test_entities_of_home_assistant(self) -> None:
        there = Assistant(free_port(), ENTITIES)
        await there.start()
        states = await entities(f"http://127.0.0.1:{there.port}", TOKEN, 5)
        await there.stop()
        assert states is not None
        with tempfile.NamedTemporaryFile("w") as file:
            file.write(TOKEN)
            file.flush()
            text = imported_entities("http://hub.example:8123", file.name, states)
            home, mistakes = read_home(text)
        assert home is not None, (text, mistakes)
        self.assertEqual([(device.name, device.topic, type(device.kind).__name__)
                          for device in sorted(home.devices, key=lambda each: each.name)], [
            ("bath", "climate.bath", "Steps"), ("front_door", "binary_sensor.door", "Named"),
            ("garage", "cover.garage", "Named"), ("hall_lamp", "light.hall", "Dimmer"),
            ("hall_lamp_colour", "light.hall", "Palette"),
            ("hall_lamp_white", "light.hall", "Steps"), ("mode", "select.mode", "Named"),
            ("south", "cover.south", "Steps"), ("switch_pump", "switch.pump", "Named")])
        mode = home.devices[home.numbers["mode"]].kind
        self.assertEqual(mode.payload(mode.of_word("extra_warm")), {"state": "Extra warm"})
        bath = home.devices[home.numbers["bath"]].kind
        self.assertEqual((bath.of_word("7"), bath.high), (0, 56))

    def test_any_announcement(self) -> None:
        draw = random.Random(3)
        parts: list[object] = [None, 1, "x", [], {}, True, 1e300, "state", [1], {"name": []}]

        def spoil(value: object) -> object:
            if draw.random() < 0.05:
                return draw.choice(parts)
            if isinstance(value, dict):
                return {key: spoil(each) for key, each in value.items()}
            return [spoil(each) for each in value] if isinstance(value, list) else value
        for _ in range(40):
            zigbee, tasmota = spoil(ZIGBEE), spoil(TASMOTA)
            others = [(component, spoil(told)) for component, told in DISCOVERY]
            text = imported(BrokerPlace(), "zigbee2mqtt", Announced(
                zigbee if isinstance(zigbee, list) else [],
                tasmota if isinstance(tasmota, list) else [], others))
            _, mistakes = read_home(text.replace("DEVICE", "none"))
            self.assertTrue(all("none" in each.text or "is nothing" in each.text
                                or "same thing" in each.text for each in mistakes), mistakes)
            states = spoil([{"entity_id": entity, "state": state, "attributes": attributes}
                            for entity, (state, attributes) in ENTITIES.items()])
            text = imported_entities("http://x", "/none", states if isinstance(states, list)
                                     else [])
            _, mistakes = read_home(text.replace("DEVICE", "none"))
            self.assertTrue(all("none" in each.text or "token" in each.text
                                or "is nothing" in each.text for each in mistakes), mistakes)


if __name__ == "__main__":
    unittest.main()
