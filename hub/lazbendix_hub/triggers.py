"""What begins a routine: messages, times, states of devices, and what is to be done some time
later."""
from __future__ import annotations

import asyncio
import datetime
import json
import logging
import time
from typing import Callable

from lazbendix_hub.broker import Broker
from lazbendix_hub.drivers import DeviceDriver, parsed
from lazbendix_hub.home import (CronTrigger, DeviceTrigger, EntityTrigger, Home, RoutineTrigger,
                                SunTrigger, TopicTrigger)
from lazbendix_hub.home_assistant import HomeAssistant, State
from lazbendix_hub.live import Ended, LiveHub, Watcher
from lazbendix_hub.times import next_time

LOG = logging.getLogger("lazbendix.triggers")
LONGEST_SLEEP = 600.0  # s: the wall's clock may be set meanwhile
LATEST = 120.0  # s: a time that passed longer ago, as in a sleep of the machine, is passed over


class Triggers(Watcher):
    """Sets all triggers of a home up, and keeps its times."""

    def __init__(self, home: Home, broker: Broker, drivers: list[DeviceDriver], live: LiveHub,
                 assistant: HomeAssistant | None = None) -> None:
        self.home, self.broker, self.drivers, self.live = home, broker, drivers, live
        self.loop = asyncio.get_running_loop()
        self.due: dict[tuple[int, int], float] = {}  # when each timer is over, on the wall's clock
        self.timers: dict[tuple[int, int], asyncio.TimerHandle] = {}
        self.tasks: list[asyncio.Task[None]] = []
        self.after_routine: list[tuple[int, int, RoutineTrigger]] = []
        for routine, of in enumerate(home.routines):
            for at, trigger in enumerate(of.triggers):
                match trigger:
                    case TopicTrigger():
                        broker.subscribe(trigger.topic, self._by_message(routine, trigger))
                    case EntityTrigger() if assistant is not None:
                        assistant.hear(trigger.entity, self._by_entity(routine, trigger))
                    case DeviceTrigger():
                        self._by_device(routine, at, trigger)
                    case RoutineTrigger():
                        self.after_routine.append((routine, at, trigger))
                    case CronTrigger() | SunTrigger():
                        task = self.loop.create_task(self._by_time(routine, trigger))
                        task.add_done_callback(_told_where_failed)
                        self.tasks.append(task)
            broker.subscribe(f"{home.base}/routine/{of.name}/run", self._by_button(routine))
        self._put_off_again()

    def end(self) -> None:
        """Nothing begins any more."""
        for task in self.tasks:
            task.cancel()
        for timer in self.timers.values():
            timer.cancel()

    # -- Messages. A retained one would begin its routine at each start, so it is passed over.

    def _by_button(self, routine: int) -> Callable[[str, bytes, bool], None]:
        def heard(topic: str, payload: bytes, is_retained: bool) -> None:
            if not is_retained and payload in (b"", b"run", b"PRESS"):
                self.live.begin(routine, "mqtt")
        return heard

    def _by_message(self, routine: int, trigger: TopicTrigger
                    ) -> Callable[[str, bytes, bool], None]:
        def heard(topic: str, payload: bytes, is_retained: bool) -> None:
            if not is_retained and matches(trigger, payload):
                self.live.begin(routine, f"topic {trigger.topic}")
        return heard

    def _by_entity(self, routine: int, trigger: EntityTrigger) -> Callable[[State, bool], None]:
        """A button's state is the time at which it was pressed; each other one is a press."""
        last: list[object] = [None]

        def heard(state: State, is_now: bool) -> None:
            word = state.get("state")
            before, last[0] = last[0], word
            if is_now and word not in (before, None, "unavailable", "unknown") \
                    and before not in (None, "unavailable") and trigger.to in ("", word):
                self.live.begin(routine, f"entity {trigger.entity}")
        return heard

    # -- States of devices

    def _by_device(self, routine: int, at: int, trigger: DeviceTrigger) -> None:
        driver = self.drivers[trigger.device]
        name = self.home.devices[trigger.device].name
        is_asked = not self.home.devices[trigger.device].is_sleepy

        def changed(value: int, before: int | None) -> None:
            holds = trigger.holds(value)
            was_held = before is not None and trigger.holds(before)
            if trigger.after is not None:  # whoever has brought it there
                if not holds:
                    self._cancel((routine, at))
                elif not was_held:
                    self._later((routine, at), trigger.after, f"{name}, {trigger.after:g} s later")
            elif holds and not was_held and not (before is None and is_asked) \
                    and trigger.device not in self.live.out:  # what the hub does begins nothing
                self.live.begin(routine, f"device {name}")
        driver.on_value.append(changed)

    # -- Later

    def _later(self, key: tuple[int, int], seconds: float, source: str) -> None:
        self._cancel(key)

        def due() -> None:
            self._cancel(key)
            self.live.begin(key[0], source)
        self.timers[key] = self.loop.call_later(seconds, due)
        self.due[key] = time.time() + seconds
        self._keep()

    def _cancel(self, key: tuple[int, int]) -> None:
        timer = self.timers.pop(key, None)
        if timer is not None:
            timer.cancel()
            del self.due[key]
            self._keep()

    def _keep(self) -> None:
        self.live.ledger.put_off({f"{self.home.routines[routine].name}/{at}": due
                                  for (routine, at), due in self.due.items()})

    def _put_off_again(self) -> None:
        """What a former life has put off is due when it was; at once where that has passed, unless
        it has become too old, or the device has left its value meanwhile."""
        kept = dict(self.live.ledger.later)
        for routine, of in enumerate(self.home.routines):
            for at, trigger in enumerate(of.triggers):
                due = kept.get(f"{of.name}/{at}")
                if due is None or time.time() - due > of.fresh:
                    continue
                if isinstance(trigger, DeviceTrigger) and trigger.after is not None:
                    value = self.drivers[trigger.device].value
                    if value is None or not trigger.holds(value):
                        continue
                elif not isinstance(trigger, RoutineTrigger):
                    continue
                self._later((routine, at), max(due - time.time(), 0), "put off before a restart")

    def begun(self, routine: int) -> None:
        """A new trigger of a routine, a new motion say, puts off what was to be done after it."""
        name = self.home.routines[routine].name
        for other, at, trigger in self.after_routine:
            if trigger.routine == name:
                self._cancel((other, at))

    def ended(self, ended: Ended) -> None:
        """What is to be done after this routine is due some time from now."""
        if ended.outcome == "committed":
            for other, at, trigger in self.after_routine:
                if trigger.routine == ended.routine:
                    self._later((other, at), trigger.after,
                                f"{trigger.after:g} s after {ended.routine}")

    # -- Times

    async def _by_time(self, routine: int, trigger: CronTrigger | SunTrigger) -> None:
        """Those that passed while the hub was away are not made up for."""
        now = datetime.datetime.now().astimezone()
        while True:
            due = next_time(trigger, now, self.home.place)
            if due is None:
                return
            while (left := (due - datetime.datetime.now().astimezone()).total_seconds()) > 0:
                await asyncio.sleep(min(left, LONGEST_SLEEP))
            if left > -LATEST:
                word = "cron" if isinstance(trigger, CronTrigger) else "sun"
                self.live.begin(routine, f"{word} {due:%H:%M}")
            now = max(due, datetime.datetime.now().astimezone())


def _told_where_failed(task: asyncio.Task[None]) -> None:
    if not task.cancelled() and task.exception() is not None:
        LOG.error("a time is kept no more", exc_info=task.exception())


def matches(trigger: TopicTrigger, payload: bytes) -> bool:
    """Whether the message is meant."""
    if trigger.prop is not None:
        told = parsed(payload)
        if not isinstance(told, dict) or trigger.prop not in told:
            return False
        found = told[trigger.prop]
        text = found if isinstance(found, str) else json.dumps(found)
        return trigger.payload is None or text == trigger.payload
    return trigger.payload is None or payload == trigger.payload.encode()
