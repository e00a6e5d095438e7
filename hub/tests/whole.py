"""The whole daemon for tests: its page, discovery and all, in this process."""
from __future__ import annotations

import asyncio
import os
import tempfile
from typing import Any

import aiohttp

from lazbendix_hub.broker import Broker
from lazbendix_hub.daemon import Daemon, load
from lazbendix_hub.mosquitto import Mosquitto, free_port
from lazbendix_hub.simulated import Manner, make_devices
from tests.stage import HOME, until, want_mosquitto


class Whole:
    """`async with Whole() as whole`."""

    def __init__(self, text: str = HOME, page: str = "") -> None:
        self.text, self.page = text, page

    async def __aenter__(self) -> "Whole":
        want_mosquitto()
        self.room = tempfile.TemporaryDirectory()
        self.folder = self.room.name
        self.mosquitto = Mosquitto(self.folder)
        self.mosquitto.start()
        self.port = free_port()
        self.path = os.path.join(self.folder, "home.yaml")
        self.write(self.text)
        self.home = load(self.path)
        self.sim = Broker("simulated", "")
        self.sim.connect("127.0.0.1", self.mosquitto.port)
        await self.sim.up.wait()
        self.devices = make_devices(self.home, self.sim, Manner(late=0.02, blinds=0.3))
        self.daemon = Daemon(self.path, self.folder, self.home)
        self.task = asyncio.create_task(self.daemon.run())
        await until(lambda: self.daemon.live is not None or self.task.done())
        if self.task.done():
            self.task.result()
        self.web = aiohttp.ClientSession(
            f"http://127.0.0.1:{self.port}", cookie_jar=aiohttp.CookieJar(unsafe=True))
        return self

    def write(self, text: str) -> None:
        """Writes the home's file."""
        with open(self.path, "w", encoding="utf-8") as file:
            file.write(f"broker: {{port: {self.mosquitto.port}}}\n"
                       f"page: {{port: {self.port}{self.page}}}\n{text}")

    async def __aexit__(self, *why: Any) -> None:
        await self.web.close()
        self.daemon.ending.set()
        await self.task
        for device in self.devices.values():
            device.end()
        self.sim.close()
        self.mosquitto.stop()
        self.room.cleanup()

    @property
    def live(self) -> Any:
        """The hub."""
        return self.daemon.live

    async def ask(self, path: str, method: str = "GET", **more: Any) -> tuple[int, Any]:
        """What is answered: the status, and the JSON or the text."""
        async with self.web.request(method, path, **more) as told:
            is_json = told.content_type == "application/json"
            return told.status, await told.json() if is_json else await told.text()

    async def quiet(self) -> None:
        """Waits until nothing runs."""
        await until(lambda: self.live is not None and not self.live.is_open
                    and not self.live.queue, 20)
