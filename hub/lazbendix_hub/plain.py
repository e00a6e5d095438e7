"""Any other device over MQTT: a topic in which it reports, and one that takes its commands.

A payload is the value itself, or JSON of which one property is it. Such a device is not asked where
it is: its last word counts, as that of one that sleeps.
"""
from __future__ import annotations

import json
from typing import Any, Mapping

from lazbendix_hub import kinds
from lazbendix_hub.broker import Broker, Link
from lazbendix_hub.drivers import MqttDriver, TasmotaDriver, parsed
from lazbendix_hub.home import PLAIN, Device
from lazbendix_hub.kinds import Payload, number_of


class PlainDriver(MqttDriver):
    """TOPIC, and the topics and words of the device's wire."""

    def __init__(self, device: Device, broker: Broker, link: Link, base: str) -> None:
        assert device.wire is not None
        self.wire = device.wire
        super().__init__(device, broker, link, base)

    def begin(self, topic: str) -> None:
        self.broker.subscribe(self.device.topic, self._state)
        if self.wire.availability:
            self.broker.subscribe(self.wire.availability, self._availability)

    def _availability(self, topic: str, payload: bytes, is_retained: bool) -> None:
        told = parsed(payload)
        word = told.get("state") if isinstance(told, dict) else payload.decode("utf-8", "replace")
        if word in (self.wire.online, self.wire.offline):
            self.go_away(word == self.wire.offline)

    def _state(self, topic: str, payload: bytes, is_retained: bool) -> None:
        told = self._read(payload)
        if told is not None:
            self.told(told, is_retained)

    def _read(self, payload: bytes) -> Mapping[str, Any] | None:
        """The payload as the device's kind reads it."""
        if isinstance(self.kind, (kinds.Dimmer, kinds.Palette)):
            told = parsed(payload)
            return told if isinstance(told, dict) else None
        word: Any = payload.decode("utf-8", "replace")
        if self.wire.prop:
            told = parsed(payload)
            if not isinstance(told, dict) or self.wire.prop not in told:
                return None
            given = told[self.wire.prop]
            word = given if isinstance(given, str) else json.dumps(given)
        return {"value": number_of(word) if isinstance(self.kind, kinds.Steps) else word}

    def ask(self) -> None:
        """It is not asked: its last word counts, also for a command that changes nothing, after
        which it may say nothing."""
        for is_it, future in self.waiting:
            if not self.is_away and not self.is_old() and not future.done() \
                    and self.value is not None and is_it(self.value):
                future.set_result(True)
        self.repeat()

    def send(self, payload: Payload) -> None:
        if "value" in payload and not self.wire.is_json:
            self.broker.publish(self.wire.set, str(payload["value"]))
        elif "value" in payload:
            self.broker.publish(self.wire.set, json.dumps({self.wire.prop: payload["value"]}))
        else:
            self.broker.publish(self.wire.set, json.dumps(payload))


def make_driver(device: Device, broker: Broker, links: Mapping[str, Link], base: str) -> MqttDriver:
    """The driver of a device over MQTT, by its maker."""
    of = {"tasmota": TasmotaDriver, PLAIN: PlainDriver}.get(device.maker, MqttDriver)
    return of(device, broker, links[device.maker], base)
