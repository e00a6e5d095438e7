"""Devices over MQTT: how each is driven, asked and found, and what each shows of itself.

A device has done what it was told when a message on its topic that is not retained, and came after
the command, shows the value. MQTT has no answer to a command, and Zigbee2MQTT no number by which
one could be known, so this is as near as it gets.
"""
from __future__ import annotations

import asyncio
import json
import time
from typing import Any, Callable, Mapping

from lazbendix import Answer, Dead, Found, Go, Task, Worked

from lazbendix_hub.broker import Broker, Link
from lazbendix_hub.home import Device
from lazbendix_hub.kinds import Payload

IsIt = Callable[[int], bool]


class DeviceDriver:
    """A device over some link: what it has shown, and how a call of the core is made of it. What is
    left open is how it is asked, and sent a command."""

    is_ordered = True  # a call of a killed hub never arrives after one of the next hub

    def __init__(self, device: Device, link: Link) -> None:
        self.device, self.link = device, link
        self.kind, self.limit = device.kind, device.limit
        self.value: int | None = None
        self.is_away = False
        self.is_confirmed = False  # a message that was not retained has shown the value
        self.seen_at = 0.0
        self.waiting: list[tuple[IsIt, asyncio.Future[bool]]] = []
        # another value in a message of now, and the one before, where it is known
        self.on_value: list[Callable[[int, int | None], None]] = []
        self.on_shown: list[Callable[[], None]] = []  # any value, in a message of now
        self.on_away: list[Callable[[bool], None]] = []

    # -- What it tells

    def go_away(self, is_away: bool) -> None:
        """The device says that it is away, or back."""
        if is_away == self.is_away:
            return
        self.is_away = is_away
        if is_away:
            for _, future in self.waiting:
                if not future.done():
                    future.set_result(False)
        for call in self.on_away:
            call(is_away)

    def told(self, told: Mapping[str, object], is_retained: bool) -> None:
        """The device has told these properties."""
        value = self.kind.value(told)
        if value is None:
            return
        if is_retained:  # it tells where the device was: that fills in what is unknown, no more
            if self.value is None:
                self.value = value
                self.seen_at = time.monotonic()
            return
        before, self.value = self.value, value
        self.is_confirmed, self.seen_at = True, time.monotonic()
        for is_it, future in self.waiting:
            if not future.done() and is_it(value):
                future.set_result(True)
        if before != value:
            for changed in self.on_value:
                changed(value, before)
        for shown in self.on_shown:
            shown()

    # -- What it is asked

    def ask(self) -> None:
        """Asks it to show itself. One that sleeps would not hear: of a sensor its last word counts,
        and of another one nothing does until it speaks."""
        raise NotImplementedError

    def repeat(self) -> None:
        """Counts its last word as said now, unless that is too old."""
        if self.value is not None and not self.is_away and not self.is_old():
            for shown in self.on_shown:
                shown()

    def send(self, payload: Payload) -> None:
        """Sends a command."""
        raise NotImplementedError

    def is_reachable(self) -> bool:
        """Whether what carries the calls is there."""
        return self.link.is_up

    def is_trusted(self) -> bool:
        """Whether the value was told in this life of the hub, or is all that a sleeper tells."""
        return self.is_confirmed or self.device.is_sleepy

    def is_old(self) -> bool:
        """Whether its last word, where it sleeps, is too long ago."""
        return time.monotonic() - self.seen_at > self.device.age

    async def until(self, is_it: IsIt, begin: Callable[[], None]) -> bool:
        """Begins, and waits until a message shows what is wanted; half way through the limit it
        begins again, and asks, since a message may be lost, and a device that stands there already
        may say nothing. Where the link is lost it begins anew when it is back. No where the device
        says that it is away; the limit is the hub's."""
        while True:
            await self.link.up.wait()
            if self.is_away:
                return False
            future: asyncio.Future[bool] = asyncio.get_running_loop().create_future()
            self.waiting.append((is_it, future))
            lost: asyncio.Future[Any] = asyncio.ensure_future(self.link.lost.wait())
            both: set[asyncio.Future[Any]] = {future, lost}
            try:
                begin()
                done, _ = await asyncio.wait(both, timeout=self.limit / 2,
                                             return_when=asyncio.FIRST_COMPLETED)
                while not done:
                    begin()
                    self.ask()
                    done, _ = await asyncio.wait(both, timeout=self.limit / 4,
                                                 return_when=asyncio.FIRST_COMPLETED)
                if future.done():
                    return future.result()
            finally:
                lost.cancel()
                self.waiting.remove((is_it, future))

    async def drive(self, value: int) -> bool:
        """Drives the device; whether it has shown the value."""
        return await self.until(lambda shown: self.kind.is_near(shown, value),
                                lambda: self.command(value))

    def command(self, value: int) -> None:
        """Sends the command that drives the device there."""
        self.send(self.kind.payload(value))

    async def find(self) -> int | None:
        """Where the device stands, none where it does not tell. One that sleeps is asked nothing:
        what it told last counts, unless that is too long ago."""
        if self.device.is_sleepy:
            return None if self.is_away or self.is_old() else self.value
        return self.value if await self.until(lambda shown: True, self.ask) else None

    async def call(self, go: Go) -> Answer:
        """Makes the call of the core."""
        if self.is_away:  # it says so itself: nobody waits for the limit
            return Dead()
        if go.task is Task.DRIVE:
            return Worked() if await self.drive(go.value) else Dead()
        value = await self.find()
        if value is None:
            return Dead()
        if go.task is Task.SENSE:
            return Found(go.stood if self.kind.is_near(value, go.stood) else value)
        if go.task is Task.RESTORE and not self.kind.is_sensor:
            return Worked() if await self.drive(go.value) else Dead()
        return Worked()


class MqttDriver(DeviceDriver):
    """Zigbee2MQTT: TOPIC/set and TOPIC/get, the state as JSON in TOPIC, TOPIC/availability."""

    def __init__(self, device: Device, broker: Broker, link: Link, base: str) -> None:
        super().__init__(device, link)
        self.broker = broker
        self.begin(f"{base}/{device.topic}")

    def begin(self, topic: str) -> None:
        """Subscribes to what the device tells."""
        self.set_topic, self.get_topic = f"{topic}/set", f"{topic}/get"
        self.broker.subscribe(topic, self._state)
        self.broker.subscribe(f"{topic}/availability", self._availability)

    def _availability(self, topic: str, payload: bytes, is_retained: bool) -> None:
        told = parsed(payload)
        word = told.get("state") if isinstance(told, dict) else payload.decode("utf-8", "replace")
        if word in ("online", "offline"):
            self.go_away(word == "offline")

    def _state(self, topic: str, payload: bytes, is_retained: bool) -> None:
        told = parsed(payload)
        if isinstance(told, dict):
            self.told(told, is_retained)

    def ask(self) -> None:
        if self.kind.is_sensor and self.device.is_sleepy:
            self.repeat()
        elif not self.device.is_sleepy:
            self.broker.publish(self.get_topic, json.dumps(self.kind.asked()))

    def send(self, payload: Payload) -> None:
        self.broker.publish(self.set_topic, json.dumps(payload))

    def command(self, value: int) -> None:
        super().command(value)
        if self.value is not None and self.is_trusted() and self.kind.is_near(self.value, value):
            self.ask()  # where nothing changes it may say nothing


class TasmotaDriver(MqttDriver):
    """Tasmota: cmnd/TOPIC/WORD; stat/TOPIC/RESULT and stat/TOPIC/POWER tell; tele/TOPIC/LWT."""

    def begin(self, topic: str) -> None:
        name = self.device.topic
        self.broker.subscribe(f"stat/{name}/RESULT", self._state)
        self.broker.subscribe(f"tele/{name}/STATE", self._state)
        self.broker.subscribe(f"tele/{name}/LWT", self._lived)
        for prop in self.kind.asked():
            if prop.startswith("POWER"):
                self.broker.subscribe(f"stat/{name}/{prop}", self._powered)

    def _powered(self, topic: str, payload: bytes, is_retained: bool) -> None:
        word = payload.decode("utf-8", "replace")
        if word == "OFF" or len(self.kind.asked()) == 1:  # of a dimmer `ON` is no brightness
            self.told({topic.rpartition("/")[2]: word}, is_retained)

    def _lived(self, topic: str, payload: bytes, is_retained: bool) -> None:
        if payload in (b"Online", b"Offline"):
            self.go_away(payload == b"Offline")

    def ask(self) -> None:
        words = list(self.kind.asked())
        self.broker.publish(f"cmnd/{self.device.topic}/{words[-1]}", "")

    def send(self, payload: Payload) -> None:
        for word, value in payload.items():
            self.broker.publish(f"cmnd/{self.device.topic}/{word}", str(value))


def parsed(payload: bytes) -> Any:
    """The JSON of a payload, none where it is none."""
    try:
        return json.loads(payload)
    except (ValueError, RecursionError):  # also of bytes that are no UTF-8
        return None
