"""A soak: the hub as a process of its own, over a real broker and simulated devices; commands are
lost, hands turn things, devices go away, the broker is started anew, the hub is killed.

    python3 -m tests.soak --triggers 2000 --kills 20 --brokers 4
"""
from __future__ import annotations

import argparse
import asyncio
import json
import os
import random
import signal
import subprocess
import sys
import tempfile
import time
from typing import Any

import aiohttp

from lazbendix_hub.broker import Broker
from lazbendix_hub.history import History
from lazbendix_hub.mosquitto import Mosquitto, free_port
from lazbendix_hub.reading import read_home
from lazbendix_hub.simulated import Manner, make_devices
from tests.stage import TOP, want_mosquitto

HOME = """
limit: 0.4
devices:
  lamp: {kind: dimmer}
  glow: {kind: colour}
  shelf: {kind: dimmer}
  heat: {kind: climate}
  blinds: {kind: blinds, limit: 1s}
  door: {kind: lock}
  pump: {kind: plug, maker: tasmota}
  window: {kind: contact}
routines:
  wake: {do: [{set: blinds, to: open, optional: yes}, {set: lamp, to: 120}, {set: heat, to: 21.5}]}
  leave: {do: [{check: window, to: shut}, {set: heat, to: 15}, {set: lamp, to: "off"},
               {set: pump, to: "off", optional: yes}, {set: door, to: locked}]}
  come: {do: [{set: door, to: unlocked}, {set: lamp, to: "on"}, {set: heat, to: 21}]}
  film: {do: [{set: blinds, to: shut}, {set: lamp, to: 20}, {set: glow, to: red, optional: yes}]}
  water: {do: [{set: pump, to: "on"}, {set: shelf, to: 9}, {set: pump, to: "off"}]}
  night: {do: [{set: shelf, to: "off"}, {set: glow, to: warm, optional: yes}, {set: heat, to: 17},
               {set: door, to: locked}]}
"""


class Soak:
    """One play; `found` is what came of it."""

    def __init__(self, folder: str, triggers: int, kills: int, brokers: int, seed: int,
                 gap: float) -> None:
        self.folder, self.triggers, self.gap = folder, triggers, gap
        self.draw = random.Random(seed)
        places = self.draw.sample(range(3, triggers - 3), kills + brokers)
        self.kills, self.brokers = set(places[:kills]), set(places[kills:])
        self.mosquitto = Mosquitto(folder)
        self.port = free_port()
        self.url = f"http://127.0.0.1:{self.port}"
        self.text = (f"broker: {{port: {self.mosquitto.port}}}\npage: {{port: {self.port}}}\n"
                     + HOME)
        self.path = os.path.join(folder, "home.yaml")
        with open(self.path, "w", encoding="utf-8") as file:
            file.write(self.text)
        home, mistakes = read_home(self.text)
        assert home is not None, mistakes
        self.home = home
        self.data = os.path.join(folder, "data")
        self.acknowledged: list[int] = []
        self.hands = self.away = self.refused = 0
        self.hub: subprocess.Popen[bytes] | None = None

    def start_hub(self) -> None:
        """Begins a life of the hub."""
        with open(os.path.join(self.folder, "hub.log"), "ab") as log:
            self.hub = subprocess.Popen([sys.executable, "-m", "lazbendix_hub", "run", self.path,
                                         "--folder", self.data], stderr=log)

    async def is_there(self, web: aiohttp.ClientSession) -> bool:
        """Whether the hub answers."""
        try:
            async with web.get("/health") as told:
                return told.status == 200
        except aiohttp.ClientError:
            return False

    async def up(self, web: aiohttp.ClientSession) -> None:
        """Waits for the hub."""
        end = time.monotonic() + 120
        while not await self.is_there(web):
            assert time.monotonic() < end, "the hub did not come up"
            await asyncio.sleep(0.02)

    async def state(self, web: aiohttp.ClientSession) -> Any:
        """What the page shows, none where the hub does not answer."""
        try:
            async with web.get("/state") as told:
                return await told.json()
        except aiohttp.ClientError:
            return None

    async def play(self) -> dict[str, Any]:
        """Plays it."""
        self.mosquitto.start()
        sim = Broker("simulated", "")
        sim.connect("127.0.0.1", self.mosquitto.port)
        await sim.up.wait()
        manner = Manner(late=0.02, fails=0.02, blinds=0.2)
        self.devices = make_devices(self.home, sim, manner)
        self.start_hub()
        begin = time.monotonic()
        async with aiohttp.ClientSession(self.url) as web:
            await self.up(web)
            world = asyncio.create_task(self.world())
            await self.feed(web)
            world.cancel()
            manner.fails = 0
            for device in self.devices.values():
                if device.is_away:
                    device.come()
            await self.rest(web)
            state = await self.state(web)
            took = time.monotonic() - begin
        assert self.hub is not None
        memory = self.memory()
        self.hub.send_signal(signal.SIGTERM)
        status = self.hub.wait(60)
        found = {"seconds": round(took), "status": status, "memory_mb": memory,
                 "acknowledged": len(self.acknowledged), "refused": self.refused,
                 "hands": self.hands, "away": self.away, "check": self.check(),
                 "lost": self.lost(), "strayed": self.strayed(state), "outcomes": self.outcomes()}
        for device in self.devices.values():
            device.end()
        sim.close()
        self.mosquitto.stop()
        return found

    async def world(self) -> None:
        """Hands, and devices that go away."""
        names = [name for name in self.devices if name != "window"]
        while True:
            await asyncio.sleep(self.draw.expovariate(1 / 1.0))
            if self.draw.random() < 0.7:
                self.devices[self.draw.choice([*names, "window"])].turn()
                self.hands += 1
            else:
                device = self.devices[self.draw.choice(names)]
                self.away += 1
                device.leave()
                await asyncio.sleep(0.7)
                device.come()

    async def feed(self, web: aiohttp.ClientSession) -> None:
        """Begins the routines."""
        names = [routine.name for routine in self.home.routines]
        at = 0
        while at < self.triggers:
            if at in self.kills:
                self.kills.remove(at)
                assert self.hub is not None
                self.hub.kill()
                self.hub.wait()
                self.start_hub()
                await self.up(web)
            if at in self.brokers:
                self.brokers.remove(at)
                self.mosquitto.stop()
                await asyncio.sleep(0.6)
                self.mosquitto.start()
            try:
                async with web.post(f"/run/{self.draw.choice(names)}") as told:
                    if told.status == 202:
                        self.acknowledged.append((await told.json())["trigger"])
                        at += 1
                    else:
                        self.refused += 1
                        await asyncio.sleep(0.1)
            except aiohttp.ClientError:
                await asyncio.sleep(0.1)
            if self.gap:
                await asyncio.sleep(self.draw.expovariate(1 / self.gap))

    async def rest(self, web: aiohttp.ClientSession) -> None:
        """Waits until nothing runs, nothing waits and no device is down."""
        end = time.monotonic() + 180  # a device that is down is asked ever more seldom
        calm, state = 0, None
        while calm < 5:
            assert time.monotonic() < end, f"it did not come to rest: {state}"
            state = await self.state(web)
            is_calm = state and not state.get("opening") and not state["open"] \
                and not state["queue"] and all(each["up"] for each in state["devices"])
            calm = calm + 1 if is_calm else 0
            await asyncio.sleep(0.1)

    def memory(self) -> float:
        """The hub's resident memory."""
        assert self.hub is not None
        with open(f"/proc/{self.hub.pid}/status", encoding="utf-8") as file:
            return next(int(line.split()[1]) for line in file if line.startswith("VmRSS")) / 1024

    def check(self) -> str:
        """What the reference says."""
        ran = subprocess.run([sys.executable, f"{TOP}/library/live/check.py",
                              f"{self.data}/journal"], capture_output=True, text=True)
        return (ran.stdout + ran.stderr).strip()

    def lost(self) -> list[int]:
        """The triggers that were acknowledged, and of which no end was told."""
        history = History(self.data)
        ended = {row[0] for row in history.base.execute("select trigger_ from runs")}
        history.close()
        return sorted(set(self.acknowledged) - ended)

    def outcomes(self) -> dict[str, int]:
        """How many runs ended how."""
        history = History(self.data)
        rows = history.base.execute("select outcome, count(*) from runs group by outcome")
        found = dict(rows.fetchall())
        history.close()
        return found

    def strayed(self, state: Any) -> list[str]:
        """The devices that do not stand where the home has them."""
        found = []
        for device, told in zip(self.home.devices, state["devices"]):
            value = self.devices[device.name].value
            home = device.kind.of_word(told["home"])
            if value is None or not device.kind.is_near(value, home):
                found.append(f"{device.name}: {told['home']} at home, at {value}")
        return found


def soak(triggers: int, kills: int, brokers: int, seed: int = 1, gap: float = 0.03
         ) -> dict[str, Any]:
    """Plays a soak, and answers what came of it."""
    want_mosquitto()
    with tempfile.TemporaryDirectory() as folder:
        play = Soak(folder, triggers, kills, brokers, seed, gap)
        try:
            return asyncio.run(play.play())
        except BaseException:
            with open(os.path.join(folder, "hub.log"), encoding="utf-8") as log:
                print(log.read()[-3000:], file=sys.stderr)
            raise
        finally:
            if play.hub is not None and play.hub.poll() is None:
                play.hub.kill()
            play.mosquitto.stop()


if __name__ == "__main__":
    options = argparse.ArgumentParser()
    options.add_argument("--triggers", type=int, default=2000)
    options.add_argument("--kills", type=int, default=20)
    options.add_argument("--brokers", type=int, default=4)
    options.add_argument("--seed", type=int, default=1)
    options.add_argument("--gap", type=float, default=0.03)
    print(json.dumps(soak(**vars(options.parse_args())), indent=1))
