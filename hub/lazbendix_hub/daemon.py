"""The daemon: one home.yaml, its broker, its house, its page; signals, reload, a graceful stop."""
from __future__ import annotations

import asyncio
import gc
import logging
import os
import signal
import socket
import time
from typing import Callable

from lazbendix_hub.broker import Broker
from lazbendix_hub.discovery import Discovery
from lazbendix_hub.figures import Figures
from lazbendix_hub.history import History
from lazbendix_hub.home import Home
from lazbendix_hub.home_assistant import HomeAssistant
from lazbendix_hub.house import House, refusal
from lazbendix_hub.ledger import Kept, Ledger, Records
from lazbendix_hub.live import Ended, LiveHub, Watcher
from lazbendix_hub.reading import read_home
from lazbendix_hub.web import Web

LOG = logging.getLogger("lazbendix.daemon")
DRAIN = 20.0  # s: so long an open window may go on at a stop
RESUMES = 10.0  # s: with so long without an answer of the loop it is not healthy


class BadHome(Exception):
    """The file cannot be lived in; its text says why, a line for each mistake."""


def load(path: str) -> Home:
    """The home of a file. Raises `BadHome`."""
    try:
        with open(path, encoding="utf-8") as file:
            text = file.read()
    except OSError as error:
        raise BadHome(f"{path}: {error.strerror}") from None
    except UnicodeDecodeError:
        raise BadHome(f"{path}: no text in UTF-8") from None
    home, mistakes = read_home(text)
    if home is None:
        raise BadHome("\n".join(f"{path}: {each}" for each in mistakes))
    return home


class Keeper(Watcher):
    """Keeps each end in the history and in the logs."""

    def __init__(self, history: History) -> None:
        self.history = history

    def ended(self, ended: Ended) -> None:
        try:
            self.history.add(ended)
        except Exception:  # it is only derived
            LOG.exception("the history could not be written")
        LOG.info("%s %s%s", ended.routine, ended.outcome,
                 f": {ended.cause}" if ended.cause else "",
                 extra={"of": {"routine": ended.routine, "outcome": ended.outcome,
                               "cause": ended.cause_kind, "trigger": ended.trigger,
                               "window": ended.window, "run": ended.run,
                               "ms": round(ended.took)}})


class Daemon:
    """What `lazbendix-hub run` runs."""

    def __init__(self, path: str, folder: str, home: Home) -> None:
        self.path, self.folder, self.home = path, folder, home
        self.live: LiveHub | None = None
        self.history, self.figures = History(folder), Figures()
        self.keeper = Keeper(self.history)
        self.web = Web(self, home.page)
        self.ledger, self.records = Ledger(folder), Records(folder)
        self.house: House | None = None
        self.discovery: Discovery | None = None
        self.broker: Broker
        self.assistant: HomeAssistant | None = None
        self.ending = asyncio.Event()
        self.reloading: asyncio.Task[None] | None = None
        self.on_ready: Callable[[], None] = lambda: None

    def is_healthy(self) -> bool:
        """Whether the loop of the hub lives, and what carries its calls is there."""
        task = self.house.task if self.house is not None else None
        return self.live is not None and task is not None and not task.done() \
            and (self.broker.is_up or not self.home.broker.host) \
            and (self.assistant is None or self.assistant.link.is_up)

    async def run(self) -> None:
        """Lives until a signal, or `ending`. Raises `OSError` where the page's place is taken."""
        loop = asyncio.get_running_loop()
        for sign in (signal.SIGTERM, signal.SIGINT):
            loop.add_signal_handler(sign, self.ending.set)
        loop.add_signal_handler(signal.SIGHUP, self.reload_soon)
        await self.web.start()
        self.broker = self._connect()
        opening = loop.create_task(self._open_first())
        await asyncio.wait({opening, loop.create_task(self.ending.wait())},
                           return_when=asyncio.FIRST_COMPLETED)
        if opening.done():
            opening.result()
            await self._until_end()
        else:
            opening.cancel()
        await self._close()

    def _connect(self) -> Broker:
        of, other = self.home.broker, self.home.assistant
        broker = Broker(f"{self.home.base.replace('/', '-')}-hub", f"{self.home.base}/status")
        if of.host:
            broker.connect(of.host, of.port, of.user, of.password, of.ca)
        if other is not None:
            self.assistant = HomeAssistant(other.url, other.token)
            self.assistant.begin()
        return broker

    async def _open_first(self) -> None:
        await self._open(self.ledger.kept)
        live = self._live()
        gc.collect()
        gc.freeze()
        LOG.info("the hub is open: %d devices, %d routines%s", len(self.home.devices),
                 len(self.home.routines), "" if live.calls.can_join else
                 "; runs join no open window with this library")
        notify("READY=1")
        self.on_ready()

    async def _open(self, kept: Kept, former: House | None = None) -> None:
        house = House(self.home, self.broker, self.ledger, self.records, self.assistant)
        if former is not None:
            house.inherit(former)
        self.figures.begin(self.home)
        await house.open(kept, [self.keeper, self.figures, self.web])
        self.house, self.live = house, house.live
        if self.home.discovery:
            self.discovery = Discovery(self.home, self.broker, house.live)
            house.live.watchers.append(self.discovery)
        self.web.changed()

    def _live(self) -> LiveHub:
        assert self.live is not None
        return self.live

    async def _until_end(self) -> None:
        """Tells systemd that all is well, and ends where the hub's loop has failed."""
        every = int(os.environ.get("WATCHDOG_USEC", "0")) / 2e6 or 5.0
        while not self.ending.is_set():
            try:
                await asyncio.wait_for(self.ending.wait(), min(every, 5.0))
            except asyncio.TimeoutError:
                pass
            task = self.house.task if self.house is not None else None
            if task is not None and task.done() and self.reloading is None:
                LOG.critical("the hub's loop has ended", exc_info=task.exception())
                raise SystemExit(1)
            notify("WATCHDOG=1")

    async def _close(self) -> None:
        notify("STOPPING=1")
        if self.reloading is not None:
            await asyncio.gather(self.reloading, return_exceptions=True)
        if self.live is not None and self.house is not None:
            LOG.info("stopping: the open window may go on for %g s", DRAIN)
            await self.live.stop(DRAIN)
            await self.house.close()
        self.live = None
        await self.web.stop()
        self.broker.close()
        if self.assistant is not None:
            await self.assistant.close()
        self.ledger.close()
        self.history.close()

    # -- Reload

    def reload_soon(self) -> None:
        """Reads the file again, and takes it at a quiet moment. One with a mistake is not taken."""
        if self.reloading is not None or self.live is None:
            LOG.warning("no reload: one is under way, or the home is being opened")
            return
        try:
            home = load(self.path)
            why = refusal(home)
            if why:
                raise BadHome(f"{self.path}: the core refuses it: {why}")
        except BadHome as bad:
            LOG.error("no reload: %s", bad)
            return
        fixed = [(of.page, of.broker, of.assistant, of.base) for of in (home, self.home)]
        if home.assistant is not None and self.assistant is None:
            LOG.error("no reload: `home-assistant` is new, which wants a restart")
            return
        if fixed[0] != fixed[1]:
            LOG.warning("`page`, `broker`, `home-assistant` and `base` stay as they are until the "
                        "hub is restarted")
        self.reloading = asyncio.get_running_loop().create_task(self._reload(home))
        self.reloading.add_done_callback(self._reloaded)

    def _reloaded(self, task: asyncio.Task[None]) -> None:
        self.reloading = None
        if not task.cancelled() and task.exception() is not None:
            LOG.critical("the reload failed", exc_info=task.exception())
            self.ending.set()

    async def _reload(self, home: Home) -> None:
        live, house = self._live(), self.house
        assert house is not None
        notify("RELOADING=1")
        await live.pause()
        self.live = None  # the page says that the home is opened
        if self.discovery is not None:
            self.discovery.end(home if home.discovery == self.home.discovery else None)
            self.discovery = None
        self.home = home
        await house.close()
        await self._open(Kept([each.accepted for each in live.queue]), house)
        LOG.info("the home is read again: %d devices, %d routines", len(home.devices),
                 len(home.routines))
        notify("READY=1")


def notify(state: str) -> None:
    """Tells systemd, where it asked for that."""
    place = os.environ.get("NOTIFY_SOCKET", "")
    if not place:
        return
    if state == "RELOADING=1":
        state += f"\nMONOTONIC_USEC={time.monotonic_ns() // 1000}"
    try:
        with socket.socket(socket.AF_UNIX, socket.SOCK_DGRAM) as sock:
            sock.connect("\0" + place[1:] if place.startswith("@") else place)
            sock.send(state.encode())
    except OSError:
        pass
