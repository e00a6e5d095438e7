"""Home Assistant, by MQTT discovery: for each routine a button, its last outcome, and an event for
each end; for each device whether it is counted up."""
from __future__ import annotations

import asyncio
import json
from typing import Any

from lazbendix_hub import __version__
from lazbendix_hub.broker import Broker
from lazbendix_hub.home import Home
from lazbendix_hub.live import Ended, LiveHub, Watcher

OUTCOMES = ["committed", "aborted", "expired"]


class Discovery(Watcher):
    """Announces the home, and tells it what ends. All is announced again when Home Assistant says
    that it has come up; what is no more in the home is taken back."""

    def __init__(self, home: Home, broker: Broker, live: LiveHub) -> None:
        self.home, self.broker, self.live = home, broker, live
        self.topics: set[str] = set()
        broker.on_change.append(self._on_broker)
        broker.subscribe(f"{home.discovery}/status", self._on_status)
        if broker.is_up:
            self.announce()

    def _on_broker(self, is_up: bool) -> None:
        if is_up:
            self.announce()

    def _on_status(self, topic: str, payload: bytes, is_retained: bool) -> None:
        if payload == b"online":
            self.announce()

    def end(self, new: Home | None = None) -> None:
        """Ends; what the new home has no more is taken out of Home Assistant."""
        self.broker.on_change.remove(self._on_broker)
        kept = {topic for topic, _ in configs(new)} if new is not None else self.topics
        for topic in self.topics - kept:
            self.broker.publish(topic, "", True)

    def announce(self) -> None:
        """Tells what there is."""
        for topic, told in configs(self.home):
            self.topics.add(topic)
            self.broker.publish(topic, json.dumps(told), True)
        for device in range(self.home.core_count):
            self.counted(device, device not in self.live.down)

    def counted(self, device: int, is_up: bool) -> None:
        name = self.home.devices[device].name
        self.broker.publish(f"{self.home.base}/device/{name}/up", "ON" if is_up else "OFF", True)

    def ended(self, ended: Ended) -> None:
        topic = f"{self.home.base}/routine/{ended.routine}"
        told = {"outcome": ended.outcome, "cause": ended.cause, "cause_kind": ended.cause_kind,
                "source": ended.source, "trigger": ended.trigger, "window": ended.window,
                "run": ended.run, "ms": round(ended.took)}
        self.broker.publish(topic, json.dumps(told), True)
        self.broker.publish(f"{topic}/event", json.dumps({"event_type": ended.outcome, **told}))


def configs(home: Home) -> list[tuple[str, dict[str, Any]]]:
    """The topics of discovery, each with what is told there."""
    found: list[tuple[str, dict[str, Any]]] = []
    base = home.base.replace("/", "_")

    def entity(component: str, name: str, label: str, told: dict[str, Any]) -> None:
        unique = f"{base}_{name}"
        found.append((f"{home.discovery}/{component}/{base}/{name}/config", {
            "name": label, "unique_id": unique, "object_id": unique,
            "default_entity_id": f"{component}.{unique}",  # newer versions take this one
            "availability_topic": f"{home.base}/status",
            "device": {"identifiers": [base], "name": "Lazbendix", "manufacturer": "Lazbendix",
                       "model": "hub core", "sw_version": __version__},
            "origin": {"name": "lazbendix-hub", "sw": __version__}, **told}))
    for routine in home.routines:
        topic = f"{home.base}/routine/{routine.name}"
        entity("button", f"{routine.name}_run", routine.label,
               {"command_topic": f"{topic}/run", "payload_press": "run"})
        entity("sensor", f"{routine.name}_outcome", f"{routine.label} outcome",
               {"state_topic": topic, "value_template": "{{ value_json.outcome }}",
                "json_attributes_topic": topic, "device_class": "enum", "options": OUTCOMES})
        entity("event", f"{routine.name}_ended", f"{routine.label} ended",
               {"state_topic": f"{topic}/event", "event_types": OUTCOMES})
    for device in home.devices[: home.core_count]:
        entity("binary_sensor", f"{device.name}_up", f"{device.label} answers",
               {"state_topic": f"{home.base}/device/{device.name}/up",
                "device_class": "connectivity", "payload_on": "ON", "payload_off": "OFF",
                "entity_category": "diagnostic"})
    return found


async def forget(broker: Broker, home: Home) -> None:
    """Takes all of the home out of Home Assistant."""
    for topic, _ in configs(home):
        broker.publish(topic, "", True)
    await asyncio.sleep(0.2)
