"""A stage for tests: a real mosquitto, simulated devices over MQTT, and a hub."""
from __future__ import annotations

import asyncio
import os
import random
import subprocess
import sys
import tempfile
import time
import unittest
from typing import Any, Callable

from lazbendix_hub.broker import Broker
from lazbendix_hub.home import Home
from lazbendix_hub.house import House
from lazbendix_hub.ledger import Ledger, Records
from lazbendix_hub.live import Ended, Watcher
from lazbendix_hub.mosquitto import Mosquitto, find_mosquitto
from lazbendix_hub.reading import read_home
from lazbendix_hub.simulated import Manner, Simulated, make_devices

TOP = os.path.dirname(os.path.dirname(os.path.dirname(os.path.abspath(__file__))))

# Limits are long, so that a machine with much other work does not make a device late; that of the
# door is shorter, since tests have it gone.
HOME = """
limit: 5s
devices:
  lamp: {topic: hall_lamp, kind: dimmer}
  glow: {topic: sofa, kind: colour}
  shelf: {kind: dimmer}
  heat: {topic: bath, kind: climate}
  blinds: {kind: blinds, limit: 20s}
  door: {kind: lock, limit: 1s}
  pump: {kind: plug, maker: tasmota}
  window: {topic: bath_window, kind: contact}
routines:
  evening: {do: [{set: lamp, to: 20}, {set: shelf, to: 20}, {set: pump, to: "on"}]}
  guests: {do: [{set: pump, to: "off"}, {set: shelf, to: 250}, {set: lamp, to: 250}]}
  half: {do: [{set: lamp, to: 99}, {set: shelf, to: 99}, {set: door, to: locked}]}
  leave: {do: [{check: window, to: shut}, {set: heat, to: 15}, {set: lamp, to: "off"}]}
  film: {do: [{set: blinds, to: shut}, {set: lamp, to: 20}, {set: glow, to: red, optional: yes}]}
  wake: {do: [{set: blinds, to: open, optional: yes}, {set: lamp, to: 120}, {set: heat, to: 21.5}]}
"""


class Ends(Watcher):
    """Collects the ends that were told."""

    def __init__(self) -> None:
        self.all: list[Ended] = []

    def ended(self, ended: Ended) -> None:
        self.all.append(ended)


def want_mosquitto() -> None:
    """Where there is no mosquitto the test is passed over."""
    if find_mosquitto() is None:
        raise unittest.SkipTest("there is no mosquitto")


def read(text: str) -> Home:
    """The home of a text without mistakes."""
    home, mistakes = read_home(text)
    assert home is not None, [str(each) for each in mistakes]
    return home


async def until(holds: Callable[[], Any], seconds: float = 10) -> None:
    """Waits until it holds."""
    end = time.monotonic() + seconds
    while not holds():
        if time.monotonic() > end:
            raise AssertionError("it did not come to hold")
        await asyncio.sleep(0.005)


def checked(folder: str) -> str:
    """What the reference says of the records of a hub's folder."""
    ran = subprocess.run([sys.executable, f"{TOP}/library/live/check.py", f"{folder}/journal"],
                         capture_output=True, text=True)
    assert ran.returncode == 0, ran.stdout + ran.stderr
    return ran.stdout.strip()


class Stage:
    """`async with Stage() as stage`: all of it, up."""

    def __init__(self, text: str = HOME, manner: Manner | None = None, folder: str = "",
                 without: tuple[str, ...] = (),
                 makes_devices: Callable[[Broker], object] | None = None) -> None:
        self.home, self.manner = read(text), manner or Manner(late=0.02, blinds=0.3)
        self.own = None if folder else tempfile.TemporaryDirectory()
        self.folder = folder or (self.own.name if self.own else "")
        self.mosquitto = Mosquitto(self.folder)
        self.without, self.makes_devices = without, makes_devices
        self.things: object = None
        self.devices: dict[str, Simulated] = {}
        self.ends = Ends()
        self.killed: list[Ledger] = []
        self.draw = random.Random(1)
        self.mark = self.last_mark = 0

    async def __aenter__(self) -> "Stage":
        want_mosquitto()
        self.mosquitto.start()
        self.sim = Broker("simulated", "")
        self.sim.connect("127.0.0.1", self.mosquitto.port)
        await self.sim.up.wait()
        if self.makes_devices is not None:
            self.things = self.makes_devices(self.sim)
        else:
            self.devices = make_devices(self.home, self.sim, self.manner)
        for name in self.without:
            self.devices[name].is_broken = True
        await self.open()
        return self

    async def open(self) -> None:
        """Begins a life of the hub."""
        self.ledger = Ledger(self.folder)
        self.broker = Broker("lazbendix-hub", "lazbendix/status")
        self.broker.connect("127.0.0.1", self.mosquitto.port)
        self.house = House(self.home, self.broker, self.ledger, Records(self.folder))
        await self.house.open(self.ledger.kept, [self.ends])
        self.live = self.house.live

    async def close(self) -> None:
        """Ends this life, as it should."""
        await self.live.stop(5)
        await self.house.close()
        self.ledger.close()
        self.broker.close()

    async def kill(self) -> None:
        """Ends this life as a kill would: nothing is written or taken back."""
        assert self.house.task is not None
        self.house.task.cancel()
        await asyncio.gather(self.house.task, return_exceptions=True)
        for out in self.live.out.values():
            if out.task is not None:
                out.task.cancel()
        self.house.triggers.end()
        for link in self.house.links.values():
            link.end()
        self.broker.forget()
        self.broker.client.disconnect()
        self.broker.client.loop_stop()
        self.live.calls.core.log.fail(OSError("killed"))  # so that nothing more is written
        self.live.calls.close()
        self.ledger.lock.close()
        self.killed.append(self.ledger)  # so that what it has not flushed is not flushed now

    async def __aexit__(self, *why: Any) -> None:
        if self.house.task is not None and not self.house.task.cancelled():
            await self.close()
        for device in self.devices.values():
            device.end()
        self.sim.close()
        self.mosquitto.stop()
        if self.own is not None:
            self.own.cleanup()

    def begin(self, name: str) -> int:
        """Begins a routine; the number of the trigger."""
        names = [routine.name for routine in self.home.routines]
        trigger = self.live.begin(names.index(name), "test")
        assert trigger is not None
        return trigger.accepted.number

    async def run(self, *names: str) -> list[Ended]:
        """Begins routines, and waits until all has ended; their ends, by trigger."""
        numbers = [self.begin(name) for name in names]
        await self.quiet()
        told = {each.trigger: each for each in self.ends.all}
        return [told[number] for number in numbers]

    async def heard(self, by: Broker | None = None) -> None:
        """Returns when the hub, or whoever is named, has heard all that the simulated devices have
        said so far."""
        self.mark += 1
        listener, wanted = by or self.broker, self.mark

        def hear(topic: str, payload: bytes, is_retained: bool) -> None:
            self.last_mark = max(self.last_mark, int(payload))
        if "tests/mark" not in listener.heard:
            listener.subscribe("tests/mark", hear)
        while self.last_mark < wanted:
            self.sim.publish("tests/mark", str(wanted))
            await asyncio.sleep(0.01)

    async def quiet(self, seconds: float = 20) -> None:
        """Waits until nothing is open and nothing waits."""
        await until(lambda: not self.live.is_open and not self.live.queue, seconds)

    def check(self) -> str:
        """What the reference says of the records."""
        return checked(self.folder)

    def record(self) -> str:
        """The text of the records of this life."""
        with open(f"{self.folder}/journal/{self.house.records.day}.record",
                  encoding="utf-8") as file:
            return file.read()

    def stands(self) -> dict[str, tuple[str, str, bool]]:
        """Of each device of the core where the home has it, where it is, and whether it is up."""
        found = {}
        for number in range(self.home.core_count):
            device = self.home.devices[number]
            stand, value = self.live.calls.stand(number), self.devices[device.name].value
            same = value is not None and device.kind.is_near(value, stand.value)
            shown = "" if value is None else device.kind.word(value)
            home = device.kind.word(stand.value)
            found[device.name] = (home, home if same else shown, stand.up)
        return found
