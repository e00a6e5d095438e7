"""What is made of one home.yaml: drivers, core, triggers, and what is told of them; it is made anew
where the file is reloaded."""
from __future__ import annotations

import asyncio
import logging
from functools import partial
from typing import Sequence

from lazbendix import Hub, ScriptRefused

from lazbendix_hub.again import Core, NotKnown, Place, Window
from lazbendix_hub.broker import Broker, BrokerLink, Link
from lazbendix_hub.calls import Calls
from lazbendix_hub.drivers import DeviceDriver
from lazbendix_hub.home import ASSISTANT, MAKERS, Device, Home
from lazbendix_hub.home_assistant import EntityDriver, HomeAssistant
from lazbendix_hub.ledger import Kept, Ledger, Records
from lazbendix_hub.live import LiveHub, Watcher
from lazbendix_hub.plain import make_driver
from lazbendix_hub.triggers import Triggers

LOG = logging.getLogger("lazbendix.house")
SETTLING = 5.0  # s: so long the devices have at the start to show themselves
PATIENCE = 5.0  # s: a broker that has not come up by then is waited for aloud
RETAINED = 0.6  # s: so long what the broker has kept of one that is not asked
BACKWARDS = 10.0  # s: the longest time for taking back what a killed hub left


class House:
    """A home that lives: `open` begins it, `close` ends it."""

    def __init__(self, home: Home, broker: Broker, ledger: Ledger, records: Records,
                 assistant: HomeAssistant | None = None) -> None:
        self.home, self.broker, self.ledger = home, broker, ledger
        self.records, self.assistant = records, assistant
        self.place = Place(ledger.folder)
        self.links = {maker: BrokerLink(broker) for maker in MAKERS if maker != ASSISTANT}
        self.links["zigbee2mqtt"].bridge(f"{home.zigbee2mqtt}/bridge/state")
        self.drivers = [self._driver(device) for device in home.devices]
        self.live: LiveHub
        self.triggers: Triggers
        self.task: asyncio.Task[None] | None = None
        self.down: set[int] = set()  # of a former house

    def _driver(self, device: Device) -> DeviceDriver:
        if device.maker == ASSISTANT:
            assert self.assistant is not None
            return EntityDriver(device, self.assistant)
        return make_driver(device, self.broker, self.links, self.home.zigbee2mqtt)

    def inherit(self, former: House) -> None:
        """Takes over what a former house has seen of the devices that are the same here, and which
        of them were down."""
        for number, device in enumerate(self.home.devices):
            at = former.home.numbers.get(device.name)
            if at is None:
                continue
            other, driver = former.home.devices[at], self.drivers[number]
            if (other.maker, other.topic, other.relay) == (device.maker, device.topic,
                                                           device.relay):
                driver.is_away = former.drivers[at].is_away
                if other.kind.core("", 0) == device.kind.core("", 0):
                    driver.value, driver.seen_at = former.drivers[at].value, \
                        former.drivers[at].seen_at
                    if at in former.live.down:
                        self.down.add(number)

    async def open(self, kept: Kept, watchers: Sequence[Watcher] = ()) -> None:
        """Looks where the devices are, and opens the home there; or else goes on with the home of
        the log of calls, and with the window that a killed hub left open. Where there is no such
        log, what a killed hub left half done is taken back. Then the triggers that wait begin."""
        await self._settle()
        core, window = self._again(kept)
        if core is None:
            starts = await self._starts(self._kept(), kept.half_done)
            core = self.place.anew(self.home.script(starts))
        calls = Calls(core)
        self.live = LiveHub(self.home, list(self.drivers), calls, self.ledger, self.records)
        self.live.watchers += watchers
        if window is not None:
            self._go_on(window, kept)
        if not self.live.is_open:
            calls.begin_anew()
            self._begin(calls)
        self._wire()
        self.triggers = Triggers(self.home, self.broker, self.drivers, self.live, self.assistant)
        self.live.watchers.append(self.triggers)
        self._begin_waiting(kept, window)
        self.task = asyncio.get_running_loop().create_task(self.live.live())

    def _begin_waiting(self, kept: Kept, window: Window | None) -> None:
        """Begins the triggers that were acknowledged, and have neither a run nor an end."""
        runs = {each.number for each in window.triggers.values()} if window is not None else set()
        numbers = self._numbers()
        for each in kept.waiting:
            if each.number in runs:
                continue
            if each.routine in numbers and each.number not in kept.over:
                self.live.begin_again(each, numbers[each.routine])
            else:
                self.ledger.ended([each.number])

    def _numbers(self) -> dict[str, int]:
        return {routine.name: at for at, routine in enumerate(self.home.routines)}

    def _again(self, kept: Kept) -> tuple[Core | None, Window | None]:
        """The home of the log, where it is this one, and the window that is left in it."""
        core = self.place.again(self.home)
        if core is None:
            return None, None
        try:
            return core, self.place.window(core, kept)
        except NotKnown as unknown:
            core.close()
            self.place.set_aside(unknown)
            return None, None

    def _go_on(self, window: Window, kept: Kept) -> None:
        """Goes on with the window, and with the pair of records that it belongs to."""
        LOG.warning("a hub was killed: its window of %s goes on, with %d runs", window.at,
                    len(window.triggers))
        if self.records.go_on() and not self.records.has(window.at):
            for number, value in window.above:
                name = self.home.devices[number].name
                if value is None:
                    self.records.lost(name)
                else:
                    self.records.found(name, self._word(number, value))
        self.live.go_on(window, kept.told, self._numbers())

    def _begin(self, calls: Calls) -> None:
        """Begins between two windows: new records from where the devices stand, and those that are
        away or silent are lost."""
        names = [device.name for device in self.home.devices[: self.home.core_count]]
        stands = [calls.stand(number) for number in range(self.home.core_count)]
        starts = {name: stand.value for name, stand in zip(names, stands)}
        self.records.begin(self.home.script(starts), calls.head())
        for number, stand in enumerate(stands):
            driver = self.drivers[number]
            is_lost = driver.is_away or (driver.value is None and driver.link.is_up) \
                or (number in self.down and not driver.is_confirmed)
            if stand.up and is_lost:
                calls.lose(number)
            if is_lost or not stand.up:
                self.records.lost(names[number])
        self.ledger.closed({name: self._word(number, starts[name])
                            for number, name in enumerate(names)})
        self.live.count_all()

    def _word(self, number: int, value: int) -> str:
        kind = self.home.devices[number].kind
        return kind.states[value] if kind.states else str(value)

    def _kept(self) -> dict[str, int]:
        """Where the devices stood when the last window was closed, as far as they are the same."""
        words, found = self.ledger.stands, {}
        for device in self.home.devices[: self.home.core_count]:
            word = words.get(device.name, "")
            if device.kind.states:
                if word in device.kind.states:
                    found[device.name] = device.kind.states.index(word)
            elif word.isascii() and word.isdigit() and len(word) < 12 \
                    and int(word) <= device.kind.high:
                found[device.name] = int(word)
        return found

    async def _settle(self) -> None:
        """Waits for the broker and for Home Assistant, and asks each device where it is."""
        if self.home.broker.host:
            await self._broker_up()
        if any(device.maker == ASSISTANT for device in self.home.devices):
            assert self.assistant is not None
            await self.assistant.link.up.wait()
        loop = asyncio.get_running_loop()
        for driver in self.drivers:
            driver.ask()
        begin = loop.time()
        while loop.time() < begin + SETTLING:
            is_late = loop.time() > begin + RETAINED
            if all(driver.is_confirmed or driver.is_away or
                   (driver.device.is_sleepy and (is_late or driver.value is not None))
                   for driver in self.drivers):
                break
            await asyncio.sleep(0.02)

    async def _broker_up(self) -> None:
        """Waits for the broker, and says so where that lasts."""
        place = self.home.broker
        try:
            await asyncio.wait_for(self.broker.up.wait(), PATIENCE)
        except asyncio.TimeoutError:
            LOG.warning("the broker at %s, port %d, does not answer; the hub waits for it",
                        place.host, place.port)
            await self.broker.up.wait()

    async def _starts(self, kept: dict[str, int], half_done: Sequence[str]) -> dict[str, int]:
        """Where each device is taken to stand: where it was seen, or else where it stood; but for
        those of a window that was open when a hub was killed: these are driven back."""
        starts, back = dict(kept), []
        for device, driver in zip(self.home.devices[: self.home.core_count], self.drivers):
            before = kept.get(device.name)
            if driver.value is None:
                continue
            is_other = before is not None and not driver.kind.is_near(driver.value, before)
            if before is not None and is_other and device.name in half_done:
                back.append((device.name, driver, before))
            elif before is None or is_other:
                starts[device.name] = driver.value
        if back:
            LOG.warning("a hub was killed: %s are driven back",
                        ", ".join(name for name, _, _ in back))
            await asyncio.gather(*(self._drive_back(name, driver, value, starts)
                                   for name, driver, value in back))
        return starts

    async def _drive_back(self, name: str, driver: DeviceDriver, value: int, starts: dict[str, int]
                          ) -> None:
        try:
            has_worked = await asyncio.wait_for(driver.drive(value), min(driver.limit, BACKWARDS))
        except asyncio.TimeoutError:
            has_worked = False
        if not has_worked and driver.value is not None:
            LOG.error("%s could not be driven back, and stays where it is", name)
            starts[name] = driver.value

    def _wire(self) -> None:
        """Has the hub hear what the devices show of themselves."""
        live = self.live
        for link in self._all_links():
            link.on_up.append(live.linked)
        for number, driver in enumerate(self.drivers):
            driver.on_shown.append(partial(live.show, number))
            driver.on_value.append(lambda value, before: live.seen())
            driver.on_away.append(partial(self._went, number))

    def _all_links(self) -> list[Link]:
        more = [] if self.assistant is None else [self.assistant.link]
        return [*self.links.values(), *more]

    def _went(self, number: int, is_away: bool) -> None:
        self.live.seen()
        if not is_away:
            self.live.back(number)

    async def close(self) -> None:
        """Ends what lives here: the hub has stopped, or is paused."""
        self.triggers.end()
        if self.task is not None:
            self.task.cancel()
            await asyncio.gather(self.task, return_exceptions=True)
        for link in self._all_links():
            link.end()
        self.broker.forget()
        if self.assistant is not None:
            self.assistant.forget()
        self.records.end()
        self.live.calls.close()


def refusal(home: Home) -> str:
    """Why the core refuses the script of the home, empty where it takes it. It should take each
    home that was read without a mistake."""
    try:
        with Hub(home.script({})):
            return ""
    except ScriptRefused as refused:
        return str(refused)
