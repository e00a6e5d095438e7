"""Simulated devices, as Zigbee2MQTT and Tasmota show them: each does its commands in order, late;
some are lost; hands turn them; now and then one goes away. For the demo and for tests."""
from __future__ import annotations

import asyncio
import json
import random
from dataclasses import dataclass
from typing import Any

from lazbendix_hub import kinds
from lazbendix_hub.broker import Broker
from lazbendix_hub.home import Device, Home


@dataclass
class Manner:
    """How the devices behave: at most so many seconds late, a share of commands lost."""

    late: float = 0.03
    fails: float = 0.0
    blinds: float = 0.5  # s for the whole way
    has_offline: bool = True  # whether one that goes away is said to be offline
    is_silent: bool = False  # whether a command that changes nothing is not answered


class Simulated:
    """A device. `state` is what it shows."""

    def __init__(self, device: Device, broker: Broker, base: str, manner: Manner,
                 draw: random.Random) -> None:
        self.device, self.broker, self.manner, self.draw = device, broker, manner, draw
        self.kind, self.is_tasmota = device.kind, device.maker == "tasmota"
        self.state: dict[str, Any] = {"linkquality": 90}
        if isinstance(self.kind, kinds.Dimmer):
            self.state |= {self.kind.switch: "OFF", self.kind.level: self.kind.high}
        self.state |= self.kind.payload(self.kind.low)
        self.is_away = self.is_broken = False
        self.commands = 0
        self.jobs: asyncio.Queue[dict[str, Any] | None] = asyncio.Queue()
        self.topic = f"{base}/{device.topic}"
        if self.is_tasmota:
            for word in {*self.kind.asked(), *self.kind.payload(self.kind.high)}:
                broker.subscribe(f"cmnd/{device.topic}/{word}", self._tasmota)
        elif not self.kind.is_sensor:
            broker.subscribe(f"{self.topic}/set", self._set)
            broker.subscribe(f"{self.topic}/get", lambda *_: self.jobs.put_nowait(None))
        broker.on_change.append(lambda is_up: self._begin() if is_up else None)
        self.task = asyncio.get_running_loop().create_task(self._live())
        if broker.is_up:
            self._begin()

    @property
    def value(self) -> int | None:
        """Where it stands."""
        return self.kind.value(self.state)

    def _begin(self) -> None:
        self.tell_availability()
        if not self.is_away:
            self.show()

    def _set(self, topic: str, payload: bytes, is_retained: bool) -> None:
        self.jobs.put_nowait(json.loads(payload))

    def _tasmota(self, topic: str, payload: bytes, is_retained: bool) -> None:
        word, text = topic.rpartition("/")[2], payload.decode()
        job = {word: text if word.startswith("POWER") else int(text)} if text else None
        self.jobs.put_nowait(job)

    def tell_availability(self) -> None:
        """Says whether it is there, as what stands before it does."""
        is_there = not (self.is_away and self.manner.has_offline)
        if self.is_tasmota:
            self.broker.publish(f"tele/{self.device.topic}/LWT",
                                "Online" if is_there else "Offline", True)
        else:
            told = json.dumps({"state": "online" if is_there else "offline"})
            self.broker.publish(f"{self.topic}/availability", told, True)

    def show(self) -> None:
        """Tells its state."""
        if self.is_tasmota:
            told = {key: value for key, value in self.state.items() if key != "linkquality"}
            self.broker.publish(f"stat/{self.device.topic}/RESULT", json.dumps(told))
        else:
            self.broker.publish(self.topic, json.dumps(self.state), self.device.is_sleepy)

    async def _live(self) -> None:
        while True:
            job = await self.jobs.get()
            if self.manner.late:
                await asyncio.sleep(self.draw.uniform(self.manner.late / 3, self.manner.late))
            if self.is_away or self.is_broken:
                continue
            is_lost = self.draw.random() < self.manner.fails
            if is_lost and self.draw.random() < 0.5:
                continue  # the command was lost; else its answer is
            is_same = job is not None and job.items() <= self.state.items()
            if job is not None:
                self.commands += 1
                await self._do(job)
            if not is_lost and not (is_same and self.manner.is_silent):
                self.show()

    async def _do(self, job: dict[str, Any]) -> None:
        before = self.state.get("position")
        if "position" in job and isinstance(before, int) and before != job["position"]:
            way = abs(job["position"] - before) / 100 * self.manner.blinds
            self.state["position"] = (before + job["position"]) // 2
            self.show()  # it is on its way
            await asyncio.sleep(way)
        self.state |= job
        if self.is_tasmota and job.get("Dimmer"):
            self.state["POWER"] = "ON"
        if "color" in job:  # a lamp shows a colour that it can make
            self.state["color"] = {axis: round(v + self.draw.uniform(-0.004, 0.004), 4)
                                   for axis, v in job["color"].items()}
        if job.get("brightness"):
            self.state["brightness"] = max(1, job["brightness"] - self.draw.randint(0, 1))

    def turn(self, value: int | None = None) -> None:
        """A hand, or the world, turns it."""
        if value is None:
            value = self.draw.randint(self.kind.low, self.kind.high)
        self.state |= self.kind.payload(value)
        if self.is_tasmota and self.state.get("Dimmer") and value:
            self.state["POWER"] = "ON"
        if not self.is_away:
            self.show()

    def leave(self) -> None:
        """It goes away: without power, or out of reach."""
        self.is_away = True
        self.tell_availability()

    def come(self) -> None:
        """It is back, and stands where it stood."""
        self.is_away = False
        self.tell_availability()
        self.show()

    def end(self) -> None:
        """It does nothing any more."""
        self.task.cancel()


def make_devices(home: Home, broker: Broker, manner: Manner, seed: int = 1) -> dict[str, Simulated]:
    """All devices of a home, by their names."""
    draw = random.Random(seed)
    return {device.name: Simulated(device, broker, home.zigbee2mqtt, manner, draw)
            for device in home.devices}
