"""A home.yaml to begin with: of what Zigbee2MQTT, Tasmota and others announce of their devices, or
of the entities of Home Assistant."""
from __future__ import annotations

import asyncio
import json
import re
from dataclasses import dataclass, field
from typing import Any, Iterator

from lazbendix_hub.broker import Broker
from lazbendix_hub.discovered import CONTACTS, MOTIONS, Row, discovered
from lazbendix_hub.drivers import parsed
from lazbendix_hub.home import BrokerPlace
from lazbendix_hub.home_assistant import HomeAssistant
from lazbendix_hub.kinds import real
from lazbendix_hub.reading import read_home

TASMOTA = "tasmota/discovery/+/config"
MOST = 500  # devices


@dataclass
class Announced:
    """What is announced at a broker: the devices of Zigbee2MQTT, those of Tasmota, and what others
    announce to Home Assistant, with its component."""

    zigbee: list[Any] = field(default_factory=list)
    tasmota: list[Any] = field(default_factory=list)
    others: list[tuple[str, Any]] = field(default_factory=list)

    def hear(self, topic: str, payload: bytes) -> None:
        """A message of discovery is heard."""
        parts = topic.split("/")
        if topic.startswith("tasmota/"):
            self.tasmota.append(parsed(payload))
        elif len(parts) > 3 and parts[-1] == "config":
            self.others.append((parts[1], parsed(payload)))


async def listened(place: BrokerPlace, base: str, seconds: float, prefix: str = "homeassistant"
                   ) -> Announced | None:
    """What is announced there; none where the broker does not answer."""
    found = Announced()
    broker = Broker("", "")

    def of_bridge(topic: str, payload: bytes, is_retained: bool) -> None:
        told = parsed(payload)
        found.zigbee[:] = told if isinstance(told, list) else []

    def other(topic: str, payload: bytes, is_retained: bool) -> None:
        found.hear(topic, payload)
    broker.subscribe(f"{base}/bridge/devices", of_bridge)
    broker.wild = (TASMOTA, f"{prefix}/+/+/config", f"{prefix}/+/+/+/config")
    broker.on_other = other
    broker.connect(place.host, place.port, place.user, place.password)
    try:
        await asyncio.wait_for(broker.up.wait(), 10)
        await asyncio.sleep(seconds)
    except asyncio.TimeoutError:
        return None
    finally:
        broker.close()
    return found


async def entities(url: str, token: str, seconds: float) -> list[Any] | None:
    """The states of all entities of a Home Assistant, none where it does not answer."""
    there = HomeAssistant(url, token)
    there.begin()
    try:
        await asyncio.wait_for(there.link.up.wait(), max(seconds, 10))
        return list(await asyncio.wait_for(there.states(), 10))
    except asyncio.TimeoutError:
        return None
    finally:
        await there.close()


def imported(place: BrokerPlace, base: str, found: Announced) -> str:
    """The text of a home.yaml with these devices. Each device is tried: one that would be a mistake
    is a comment."""
    head = (f"broker: {{host: {json.dumps(place.host)}, port: {place.port}"
            + (f", user: {json.dumps(place.user)}, password_file: FILE" if place.user else "")
            + "}\n" + f"zigbee2mqtt: {json.dumps(base)}\n")
    others = [device for component, told in found.others
              for device in discovered(component, told)]
    return head + _devices([*_zigbee(found.zigbee), *_tasmota(found.tasmota), *others], "")


def imported_entities(url: str, token_file: str, states: list[Any]) -> str:
    """The text of a home.yaml with these entities of Home Assistant, and no broker."""
    head = ("broker: off\n" + f"home-assistant: {{url: {json.dumps(url)}, "
            f"token_file: {json.dumps(token_file)}}}\n")
    return head + _devices(list(_entities(states)), "home-assistant: {token: x}\n")


def _devices(found: list[tuple[str, list[Row]]], head: str) -> str:
    """`devices` and a first routine. `head` is what each device needs in front of it."""
    lines, names, first = ["devices:"], set[str](), ""
    for label, rows in found[:MOST]:
        for suffix, row in rows:
            name = _name(label + suffix, names)
            table: dict[str, object] = {**row, "label": (label + suffix)[:100]}
            words = ", ".join(f"{key}: {json.dumps(value, ensure_ascii=False)}"
                              for key, value in table.items())
            line = f"  {name}: {{{words}}}"
            try_it = f"{head}devices:\n{line}\nroutines: {{r: {{do: [{{check: {name}, to: x}}]}}}}"
            at = 2 + head.count("\n")
            wrong = [each for each in read_home(try_it)[1] if each.line == at]
            lines.append(f"  # {wrong[0].text}\n  # {line.strip()}" if wrong else line)
            if not wrong and not first and row["kind"] in ("switch", "plug", "dimmer"):
                first = name
    if len(lines) == 1:
        lines.append("  # none was announced: lamp: {topic: NAME, kind: dimmer}")
    lines += ["routines:", "  first:", "    label: The first one",
              f"    do: [{{set: {first or 'DEVICE'}, to: off}}]"]
    return "\n".join(lines) + "\n"


def _name(label: str, names: set[str]) -> str:
    """A name that nobody has yet."""
    base = re.sub(r"[^a-z0-9_-]+", "_", label.lower()).strip("_-")[:28]
    base = base if base[:1].isalpha() else f"d_{base}"[:28]
    name, number = base, 1
    while name in names:
        number += 1
        name = f"{base}_{number}"
    names.add(name)
    return name


def _zigbee(devices: list[Any]) -> Iterator[tuple[str, list[Row]]]:
    for device in devices:
        if not isinstance(device, dict) or device.get("type") == "Coordinator":
            continue
        topic, definition = device.get("friendly_name"), device.get("definition")
        if not isinstance(topic, str) or not isinstance(definition, dict):
            continue
        exposes = definition.get("exposes")
        rows = [row for each in (exposes if isinstance(exposes, list) else [])
                if isinstance(each, dict) for row in _exposed(each)]
        yield _shown(topic), [(suffix, {"topic": topic, **row}) for suffix, row in rows]


def _shown(text: str) -> str:
    return "".join(each for each in text if each.isprintable())


def _exposed(told: dict[str, Any]) -> Iterator[Row]:
    """The devices of one thing that Zigbee2MQTT exposes."""
    listed = told.get("features")
    features = {str(each.get("name")): each for each in (listed if isinstance(listed, list) else [])
                if isinstance(each, dict)}
    kind, name = told.get("type"), told.get("name")
    prop = str(features.get("state", {}).get("property", "state"))
    ending = f" {told['endpoint']}" if isinstance(told.get("endpoint"), str) else ""
    if kind == "light":
        if "brightness" in features and prop == "state":
            yield "", {"kind": "dimmer"}
        else:
            yield ending, {"kind": "switch", "property": prop}
        if "color_temp" in features and prop == "state":
            it = features["color_temp"]
            low, high = real(it.get("value_min")), real(it.get("value_max"))
            yield " white", {"kind": "colour-temperature", "low": int(low or 153),
                             "high": int(high or 500)}
        if "color_xy" in features and prop == "state":
            yield " colour", {"kind": "colour"}
    elif kind == "switch":
        yield ending, {"kind": "switch", "property": prop}
    elif kind == "cover" and "position" in features:
        yield "", {"kind": "blinds"}
    elif kind == "lock":
        yield "", {"kind": "lock"}
    elif kind == "climate":
        for point in ("occupied_heating_setpoint", "current_heating_setpoint"):
            if point in features:
                it = features[point]
                numbers = [real(it.get(f"value_{key}")) for key in ("min", "max", "step")]
                yield "", {"kind": "climate", "property": point, "low": numbers[0] or 5,
                           "high": numbers[1] or 30, "step": numbers[2] or 0.5}
                break
    elif kind == "binary" and name in ("contact", "occupancy"):
        yield f" {name}", {"kind": "contact" if name == "contact" else "motion"}
    elif kind == "numeric" and name == "temperature":
        yield " temperature", {"kind": "thermometer"}


def _tasmota(devices: list[Any]) -> Iterator[tuple[str, list[Row]]]:
    for device in devices:
        if not isinstance(device, dict) or not isinstance(device.get("t"), str):
            continue
        names, listed = device.get("fn"), device.get("rl")
        relays = listed if isinstance(listed, list) else []
        numbers = [at for at, relay in enumerate(relays, 1)
                   if relay in (1, 2) and not isinstance(relay, bool)]
        label = names[0] if isinstance(names, list) and names and isinstance(names[0], str) \
            else device["t"]
        is_dimmer = device.get("lt_st") in (1, 2, 3, 4, 5)
        rows: list[Row] = []
        for at in numbers:
            row: dict[str, object] = {"topic": device["t"], "maker": "tasmota",
                                      "kind": "dimmer" if is_dimmer and relays[at - 1] == 2
                                      else "plug"}
            if len(numbers) > 1:
                row["relay"] = at
            rows.append((f" {at}" if len(numbers) > 1 else "", row))
        yield _shown(label), rows


def _entities(states: list[Any]) -> Iterator[tuple[str, list[Row]]]:
    for state in states:
        entity = state.get("entity_id") if isinstance(state, dict) else None
        if not isinstance(entity, str) or "." not in entity:
            continue
        given = state.get("attributes")
        attributes = given if isinstance(given, dict) else {}
        name = attributes.get("friendly_name")
        rows: list[Row] = []
        for suffix, row in _entity(entity.partition(".")[0], attributes):
            rows.append((suffix, {"entity": entity, **row}))
        if rows:
            yield _shown(name if isinstance(name, str) and name else entity), rows


def _entity(domain: str, of: dict[str, Any]) -> Iterator[Row]:
    """The devices of an entity of this domain with these attributes."""
    kind = of.get("device_class")
    match domain:
        case "light":
            yield from _light(of.get("supported_color_modes"))
        case "switch" | "input_boolean" | "fan" | "siren" | "humidifier":
            yield "", {"kind": "switch"}
        case "lock" | "valve":
            yield "", {"kind": domain}
        case "cover":
            yield "", {"kind": "blinds" if "current_position" in of else "valve"}
        case "climate":
            yield "", {"kind": "climate", **_range(of, "min_temp", "max_temp", "target_temp_step")}
        case "number" | "input_number":
            yield "", {"kind": "number", **_range(of, "min", "max", "step")}
        case "select" | "input_select":
            yield from _select(of.get("options"))
        case "binary_sensor" if kind in CONTACTS or kind in MOTIONS:
            yield "", {"kind": "contact" if kind in CONTACTS else "motion"}
        case "sensor" if kind == "temperature":
            yield "", {"kind": "thermometer"}


def _light(given: Any) -> Iterator[Row]:
    modes = {each for each in (given if isinstance(given, list) else []) if isinstance(each, str)}
    yield "", {"kind": "dimmer" if modes - {"onoff", "unknown"} else "switch"}
    if "color_temp" in modes:
        yield " white", {"kind": "colour-temperature"}
    if modes & {"xy", "hs", "rgb", "rgbw", "rgbww"}:
        yield " colour", {"kind": "colour"}


def _range(of: dict[str, Any], *keys: str) -> dict[str, object]:
    """The range that the attributes of these names give, as far as they do."""
    numbers = [real(of.get(key)) for key in keys]
    return {word: number for word, number in zip(("low", "high", "step"), numbers)
            if number is not None}


def _select(options: Any) -> Iterator[Row]:
    names: set[str] = set()
    listed = [each for each in (options if isinstance(options, list) else [])
              if isinstance(each, str)]
    values = {_name(each, names): each for each in listed}
    if len(values) > 1:
        yield "", {"kind": "choice", "values": values}
