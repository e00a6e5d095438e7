"""Measures the hub, as a process of its own over a broker and devices that answer at once.

    python3 -m tests.measure [FOLDER]

FOLDER is where the hub's files are put: one in memory, as /dev/shm, shows what the disk costs.
"""
from __future__ import annotations

import asyncio
import json
import os
import statistics
import subprocess
import sys
import tempfile
import time
from typing import Any

import aiohttp

from lazbendix_hub.broker import Broker, BrokerLink
from lazbendix_hub.history import History
from lazbendix_hub.home import Home
from lazbendix_hub.mosquitto import Mosquitto, free_port
from lazbendix_hub.plain import make_driver
from lazbendix_hub.simulated import Manner, make_devices
from tests.stage import read

LAMPS = 32
TEXT = "\nlimit: 5s\ndevices:\n" + "".join(
    f"  lamp{at}: {{kind: dimmer}}\n" for at in range(LAMPS)) + """
  blinds: {kind: blinds}
routines:
  up: {do: [{set: blinds, to: open}]}
  down: {do: [{set: blinds, to: shut}]}
""" + "".join(f"  {word}{at}: {{do: [{{set: lamp{at}, to: {value}}}]}}\n"
              for at in range(LAMPS) for word, value in (("on", 200), ("off", 0))) + \
    "".join(f"  {word}: {{do: [{', '.join(f'{{set: lamp{at}, to: {to}}}' for at in range(LAMPS))}"
            "]}\n" for word, to in (("chain-a", 10), ("chain-b", 90)))


class Measure:
    """A hub, its devices, and what is measured of them."""

    def __init__(self, folder: str, data: str) -> None:
        self.data = os.path.join(data, "data")
        self.mosquitto = Mosquitto(folder)
        self.port = free_port()
        self.text = f"broker: {{port: {self.mosquitto.port}}}\npage: {{port: {self.port}}}" + TEXT
        self.home: Home = read(self.text)
        self.folder, self.path = folder, os.path.join(folder, "home.yaml")
        with open(self.path, "w", encoding="utf-8") as file:
            file.write(self.text)
        self.set_at: dict[str, float] = {}
        self.hub: subprocess.Popen[bytes] | None = None

    async def play(self) -> dict[str, Any]:
        """Measures all."""
        self.mosquitto.start()
        self.sim = Broker("simulated", "")
        self.sim.connect("127.0.0.1", self.mosquitto.port)
        await self.sim.up.wait()
        self.manner = Manner(late=0, blinds=3)
        self.devices = make_devices(self.home, self.sim, self.manner)
        for name in self.devices:
            self.sim.subscribe(f"zigbee2mqtt/{name}/set", self.heard)
        self.hub = subprocess.Popen([sys.executable, "-m", "lazbendix_hub", "run", self.path,
                                     "--folder", self.data, "--level", "ERROR"])
        async with aiohttp.ClientSession(f"http://127.0.0.1:{self.port}") as self.web:
            await self.up()
            found: dict[str, Any] = {"idle": await self.latency(150, 0.02, False),
                                     "blinds moving": await self.latency(60, 0.25, True)}
            await self.quiet()
            found["from the hub's getting it to its first call, idle"] = self.own(150)
            found["chain"] = await self.chain()
            found["bursts"] = await self.bursts(10)
            found["memory_mb"] = self.memory()
        self.hub.terminate()
        self.hub.wait()
        self.sim.close()
        self.mosquitto.stop()
        return found

    def heard(self, topic: str, payload: bytes, is_retained: bool) -> None:
        self.set_at.setdefault(topic.split("/")[1], time.perf_counter())

    async def up(self) -> None:
        """Waits for the hub."""
        for _ in range(600):
            try:
                async with self.web.get("/health") as told:
                    if told.status == 200:
                        return
            except aiohttp.ClientError:
                pass
            await asyncio.sleep(0.05)
        raise AssertionError("the hub did not come up")

    async def state(self) -> Any:
        async with self.web.get("/state") as told:
            return await told.json()

    async def quiet(self) -> None:
        """Waits until nothing runs."""
        while (state := await self.state())["open"] or state["queue"]:
            await asyncio.sleep(0.02)

    async def run(self, name: str) -> None:
        """Begins a routine over HTTP, again where too many were begun."""
        while True:
            async with self.web.post(f"/run/{name}") as told:
                if told.status == 202:
                    return
            await asyncio.sleep(0.05)

    async def latency(self, count: int, gap: float, has_blinds: bool) -> dict[str, Any]:
        """From a trigger by MQTT to the device's getting its command, in ms."""
        found: list[float] = []
        for at in range(count):
            if has_blinds and at % 14 == 0:
                await self.run("up" if at % 28 == 0 else "down")
                await asyncio.sleep(0.1)
            name, word = f"lamp{at % LAMPS}", ("on", "off")[at // LAMPS % 2]
            self.set_at.pop(name, None)
            begin = time.perf_counter()
            self.sim.publish(f"lazbendix/routine/{word}{at % LAMPS}/run", "run")
            while name not in self.set_at:
                await asyncio.sleep(0.0005)
            found.append((self.set_at[name] - begin) * 1000)
            await asyncio.sleep(gap)
        return figures(found)

    def own(self, count: int) -> dict[str, Any]:
        """The hub's own part of the first runs, of its history."""
        history = History(self.data)
        rows = history.base.execute("select first_call from runs where first_call is not null "
                                    "order by number limit ?", (count,))
        found = figures([row[0] for row in rows])
        history.close()
        return found

    async def chain(self) -> dict[str, float]:
        """A routine of 32 commands, by the hub and by MQTT alone: ms a command."""
        took = []
        for at in range(12):
            begin = time.perf_counter()
            await self.run("chain-a" if at % 2 else "chain-b")
            wanted = 10 if at % 2 else 90
            last = self.devices[f"lamp{LAMPS - 1}"]
            while abs((last.value or 0) - wanted) > 1:
                await asyncio.sleep(0.0005)
            took.append((time.perf_counter() - begin) * 1000 / LAMPS)
            await self.quiet()
        own = Broker("alone", "")
        own.connect("127.0.0.1", self.mosquitto.port)
        await own.up.wait()
        links = {"zigbee2mqtt": BrokerLink(own)}
        drivers = [make_driver(device, own, links, "zigbee2mqtt")
                   for device in self.home.devices if device.name.startswith("lamp")]
        await asyncio.sleep(0.2)
        alone = []
        for at in range(12):
            begin = time.perf_counter()
            for driver in drivers:
                await driver.drive(30 if at % 2 else 130)
            alone.append((time.perf_counter() - begin) * 1000 / LAMPS)
        own.close()
        return {"through the hub": round(statistics.median(took), 2),
                "by MQTT alone": round(statistics.median(alone), 2)}

    async def bursts(self, count: int) -> float:
        """Triggers a second, in bursts of 32 over MQTT."""
        took = []
        for at in range(count):
            word = ("on", "off")[at % 2]
            begin, before = time.perf_counter(), await self.state()
            done = before["counts"]["committed"]
            for lamp in range(LAMPS):
                self.sim.publish(f"lazbendix/routine/{word}{lamp}/run", "run")
            while (await self.state())["counts"]["committed"] < done + LAMPS:
                await asyncio.sleep(0.002)
            took.append(time.perf_counter() - begin)
        return round(LAMPS / statistics.median(took))

    def memory(self) -> float:
        """The hub's resident memory."""
        assert self.hub is not None
        with open(f"/proc/{self.hub.pid}/status", encoding="utf-8") as file:
            kilo = next(int(line.split()[1]) for line in file if line.startswith("VmRSS"))
        return round(kilo / 1024, 1)


def figures(found: list[float]) -> dict[str, Any]:
    """The middle, one in twenty, one in a hundred."""
    found.sort()
    return {"middle": round(statistics.median(found), 2),
            "one in twenty": round(found[int(len(found) * 0.95)], 2),
            "one in a hundred": round(found[min(int(len(found) * 0.99), len(found) - 1)], 2)}


if __name__ == "__main__":
    PLACE = sys.argv[1] if len(sys.argv) > 1 else None
    with tempfile.TemporaryDirectory() as room, tempfile.TemporaryDirectory(dir=PLACE) as kept:
        print(json.dumps(asyncio.run(Measure(room, kept).play()), indent=1))
