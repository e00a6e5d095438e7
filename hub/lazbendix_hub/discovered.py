"""What other devices announce to Home Assistant over MQTT, as devices of a home.yaml."""
from __future__ import annotations

import re
from typing import Any, Iterator

from lazbendix_hub.kinds import real

Row = tuple[str, dict[str, object]]  # a suffix of the name, and the device's table
SHORT = {
    "avty_t": "availability_topic", "cmd_t": "command_topic", "dev_cla": "device_class",
    "ops": "options", "pl_avail": "payload_available", "pl_not_avail": "payload_not_available",
    "pl_off": "payload_off", "pl_on": "payload_on", "pl_lock": "payload_lock",
    "pl_unlk": "payload_unlock", "pl_open": "payload_open", "pl_cls": "payload_close",
    "pos_t": "position_topic", "set_pos_t": "set_position_topic", "schema": "schema",
    "stat_locked": "state_locked", "stat_unlocked": "state_unlocked", "stat_off": "state_off",
    "stat_on": "state_on", "stat_t": "state_topic", "temp_cmd_t": "temperature_command_topic",
    "temp_stat_t": "temperature_state_topic", "val_tpl": "value_template", "o": "origin"}
TEMPLATE = re.compile(r"\{\{\s*value_json(?:\.(\w+)|\[['\"]([^'\"]+)['\"]\])\s*(?:\|[^}]*)?\}\}")
WHOLE = re.compile(r"\{\{\s*value\s*(?:\|[^}]*)?\}\}")
NATIVE = ("Zigbee2MQTT", "Tasmota", "lazbendix-hub")  # these are known in a better way
CONTACTS = ("door", "window", "opening", "garage_door")
MOTIONS = ("motion", "occupancy", "presence")
# Of each component with two states the words of the hub, and of each the keys of its payloads with
# what they are by default.
Payloads = dict[str, tuple[tuple[str, str], ...]]
TWO: dict[str, tuple[str, Payloads]] = {
    "switch": ("switch", {"off": (("payload_off", "OFF"), ("state_off", "")),
                          "on": (("payload_on", "ON"), ("state_on", ""))}),
    "light": ("switch", {"off": (("payload_off", "OFF"),), "on": (("payload_on", "ON"),)}),
    "lock": ("lock", {"unlocked": (("payload_unlock", "UNLOCK"), ("state_unlocked", "UNLOCKED")),
                      "locked": (("payload_lock", "LOCK"), ("state_locked", "LOCKED"))}),
    "valve": ("valve", {"shut": (("payload_close", "CLOSE"), ("state_closed", "closed")),
                        "open": (("payload_open", "OPEN"), ("state_open", "open"))})}


def discovered(component: str, told: Any) -> Iterator[tuple[str, list[Row]]]:
    """The device of a message of discovery, where it is one that the hub can drive or hear."""
    if not isinstance(told, dict):
        return
    of = spelled_out(told)
    origin = of.get("origin")
    name = of.get("name") or of.get("unique_id") or of.get("uniq_id") or component
    if isinstance(origin, dict) and str(origin.get("name")) in NATIVE:
        return
    row = _row(component, of)
    if row is not None:
        yield str(name), [("", {"maker": "mqtt", **row, **_availability(of)})]


def spelled_out(told: dict[str, Any]) -> dict[str, Any]:
    """The message with its abbreviations spelled out, and its base topic put in."""
    base = told.get("~")
    found: dict[str, Any] = {}
    for key, value in told.items():
        if isinstance(value, str) and isinstance(base, str) and key != "~":
            value = base + value[1:] if value.startswith("~") else \
                value[:-1] + base if value.endswith("~") else value
        found[SHORT.get(key, key)] = value
    return found


def _availability(of: dict[str, Any]) -> dict[str, object]:
    topic = of.get("availability_topic")
    if not isinstance(topic, str):
        return {}
    found: dict[str, object] = {"availability": topic}
    for key, word in (("payload_available", "online"), ("payload_not_available", "offline")):
        given = of.get(key)
        if isinstance(given, str) and given != word:
            found[word] = given
    return found


def _row(component: str, of: dict[str, Any]) -> dict[str, object] | None:
    kind = of.get("device_class")
    if component == "cover":
        return _topics(of, "blinds", "position_topic", "set_position_topic")
    if component == "climate":
        row = _topics(of, "climate", "temperature_state_topic", "temperature_command_topic")
        return None if row is None else {**row, **_range(of, "min_temp", "max_temp", "temp_step")}
    if component == "number":
        row = _topics(of, "number")
        return None if row is None else {**row, **_range(of, "min", "max", "step")}
    if component == "light" and of.get("schema") == "json" and of.get("brightness") is True:
        return _topics(of, "dimmer")
    if component == "binary_sensor" and kind in (*CONTACTS, *MOTIONS):
        first, second = ("shut", "open") if kind in CONTACTS else ("clear", "motion")
        row = _topics(of, "contact" if kind in CONTACTS else "motion", is_heard=True)
        values = {first: str(of.get("payload_off", "OFF")), second: str(of.get("payload_on", "ON"))}
        return None if row is None else {**row, "values": values}
    if component == "sensor" and kind == "temperature":
        return _topics(of, "thermometer", is_heard=True)
    return _two(component, of) if component in TWO else None


def _two(component: str, of: dict[str, Any]) -> dict[str, object] | None:
    word, states = TWO[component]
    row = _topics(of, word)
    if row is None or of.get("schema") in ("json", "template"):
        return None
    values = {name: list(dict.fromkeys(text for key, default in keys
                                       if (text := str(of.get(key, default)))))
              for name, keys in states.items()}
    return {**row, "values": values}


def _topics(of: dict[str, Any], kind: str, state: str = "state_topic", command: str
            = "command_topic", is_heard: bool = False) -> dict[str, object] | None:
    """The topics, and the property of JSON; none where there is none, or a template that is more
    than that."""
    topic, to = of.get(state), of.get(command)
    if not isinstance(topic, str) or not (is_heard or isinstance(to, str)):
        return None
    row: dict[str, object] = {"kind": kind, "topic": topic}
    if not is_heard:
        row["set"] = to
    template = of.get("value_template", "{{ value }}")
    found = TEMPLATE.fullmatch(template.strip()) if isinstance(template, str) else None
    if found is not None:
        row["property"] = found[1] or found[2]
    elif not isinstance(template, str) or not WHOLE.fullmatch(template.strip()):
        return None
    return row


def _range(of: dict[str, Any], *keys: str) -> dict[str, object]:
    numbers = [real(of.get(key)) for key in keys]
    return {word: number for word, number in zip(("low", "high", "step"), numbers)
            if number is not None}
