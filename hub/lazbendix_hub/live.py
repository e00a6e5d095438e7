"""The core loop: triggers in, runs stepped, calls out with a limit each, answers in, ends told.

Joining is the normal way: a trigger becomes a run of the window that is open. Where the library
takes none on an open window, or the window has to come to its end, the trigger is queued.
"""
from __future__ import annotations

import asyncio
import datetime
import logging
import time
from collections import deque
from dataclasses import dataclass, field
from typing import Any, Protocol

from lazbendix import (Answer, Dead, Entry, EntryKind, Found, Go, ItemKind, Moved, Over, Refused,
                       Status, Task, Waits)

from lazbendix_hub.again import Window
from lazbendix_hub.calls import Calls
from lazbendix_hub.home import ASSISTANT, Home, Job
from lazbendix_hub.kinds import Kind
from lazbendix_hub.ledger import Accepted, Ledger, Records
from lazbendix_hub.words import cause_kind, cause_text, waits_text

LOG = logging.getLogger("lazbendix.hub")

MOST_RUNS = 64  # of a window, as the core has it
MOST_WAITING = 10  # triggers of one routine that have not begun
PROBES = 100  # rounds of a window, which may live for long
PATIENCE = 0.1  # s: two waits end by time alone, so a run is taken again after so long
GATHER = 0.001  # s: where no run can join, a burst of triggers shares a window
OLDEST = 30.0  # s: where something waits for a quiet moment, an older window takes no more runs
BACK_OFF = (1.0, 300.0)  # s: the first time between two looks for a device, and the longest
ASKING = 0.03  # s between two devices that are asked where they are
SLEPT, HEARING = 0.25, 1.0  # s: a limit that is noticed so late is not over, but for so long more
SECOND = datetime.timedelta(seconds=1)
MOST_STEPS = 400  # of the time line of a run
LATEST = 10  # limits after which a command that was given up comes no more


class Driver(Protocol):
    """The way to one device. `value` is where it was last seen, `is_away` whether it says itself
    that it is not there, `is_ordered` whether the way keeps the order of calls over a restart of
    the hub."""

    kind: Kind
    limit: float
    value: int | None
    is_away: bool
    is_ordered: bool

    async def call(self, go: Go) -> Answer:
        """Makes the call. The hub sees to the limit."""

    def ask(self) -> None:
        """Asks the device to show itself, outside of any call; nobody waits for it."""

    def is_reachable(self) -> bool:
        """Whether what carries the calls is there: a broker that is away is no device that is
        down."""

    def is_trusted(self) -> bool:
        """Whether `value` is what the device told in this life, or still is fresh."""


@dataclass
class Trigger:
    """A trigger that was taken; `at` is of the loop's clock."""

    accepted: Accepted
    routine: int
    at: float


@dataclass
class Run:
    """A run of the open window."""

    number: int
    trigger: Trigger
    name: str
    begun: float
    state: str = "begins"
    outcome: str = ""
    cause: str = ""
    cause_kind: str = ""
    is_doomed: bool = False
    is_stopped: bool = False
    first_call: float | None = None
    holds: int | None = None
    steps: list[tuple[int, str]] = field(default_factory=list)

    def step(self, moment: int, text: str) -> None:
        """Notes what happened, with its ms since the window's beginning."""
        if len(self.steps) < MOST_STEPS:
            self.steps.append((moment, text))


@dataclass(frozen=True)
class Ended:
    """A run that has ended; times are in ms from its trigger."""

    trigger: int
    routine: str
    label: str
    outcome: str
    cause: str
    cause_kind: str
    source: str
    window: str
    run: int
    at: float
    waited: float
    first_call: float | None
    took: float
    steps: tuple[tuple[int, str], ...]


@dataclass
class Out:
    """A device that is out, and since when."""

    go: Go
    since: float
    task: asyncio.Task[None] | None = None
    timer: asyncio.TimerHandle | None = None


class Watcher:
    """What hears of the hub: each may be left as it is."""

    def ended(self, ended: Ended) -> None:
        """A run has ended. It is on the disk."""

    def changed(self) -> None:
        """Something that a page shows is another."""

    def counted(self, device: int, is_up: bool) -> None:
        """The device is counted up, or down."""

    def called(self, device: int, seconds: float, is_dead: bool) -> None:
        """A call has ended."""

    def begun(self, routine: int) -> None:
        """A trigger of the routine was taken."""


class LiveHub:
    """The hub over one home. Every call of the library goes through `calls`."""

    def __init__(self, home: Home, drivers: list[Driver], calls: Calls, ledger: Ledger,
                 records: Records) -> None:
        self.home, self.drivers, self.calls = home, drivers, calls
        self.ledger, self.records = ledger, records
        self.loop = asyncio.get_running_loop()
        self.watchers: list[Watcher] = []
        self.queue: deque[Trigger] = deque()
        self.is_open = self.is_stopping = self.is_paused = self.has_no_probes = False
        self.stop_text = "stopped by hand"
        self.began = self.loop.time()
        self.window_at = ""
        self.window_number = 0
        self.runs: dict[int, Run] = {}
        self.order: list[int] = []
        self.out: dict[int, Out] = {}
        self.answers: deque[tuple[Go, Answer]] = deque()
        self.ready: list[Go] = []
        self.to_tell: list[Ended] = []
        self.down: set[int] = set()
        self.lied: set[int] = set()  # counted down since a run was stopped; they answer
        self.showed: set[int] = set()  # counted down, and have shown themselves since
        self.ask_at: dict[int, float] = {}
        self.back_off: dict[int, float] = {}
        self.believed: dict[int, int] = {}
        self.given_up: dict[int, list[tuple[float, int]]] = {}  # until when, and the value
        self.turned: set[int] = set()
        self.last_time = datetime.datetime.min
        self.quiet = asyncio.Event()
        self.quiet.set()
        self.counts = {name: 0 for name in (
            "triggers", "refused", "expired", "windows", "joined", "committed", "aborted", "calls",
            "dead", "late", "turned", "probes")}
        self.core_seconds = 0.0
        self._waking: asyncio.Future[None] | None = None
        self._is_awake = False
        self._later: asyncio.TimerHandle | None = None
        gather = home.gather if home.gather is not None else GATHER
        self.gather = 0.0 if calls.can_join else gather

    # -- Triggers

    def begin(self, routine: int, source: str) -> Trigger | None:
        """Takes a trigger of the routine: its run joins the open window where that may be, and is
        queued else. None where too many of the routine wait, or the hub is stopping."""
        waiting = sum(each.routine == routine for each in self.queue)
        if self.is_stopping or waiting >= MOST_WAITING:
            self.counts["refused"] += 1
            return None
        accepted = self.ledger.accept(self.home.routines[routine].name, source, time.time())
        return self._take_in(accepted, routine)

    def begin_again(self, accepted: Accepted, routine: int) -> Trigger:
        """Takes a trigger that a former life acknowledged, and did not run."""
        return self._take_in(accepted, routine)

    def _take_in(self, accepted: Accepted, routine: int) -> Trigger:
        trigger = Trigger(accepted, routine, self.loop.time())
        self.counts["triggers"] += 1
        if not (self.is_open and not self.queue and self._join(trigger)):
            self.queue.append(trigger)
        for watcher in self.watchers:
            watcher.begun(routine)
        self._changed()
        self.wake()
        return trigger

    def _join(self, trigger: Trigger) -> bool:
        """Adds a run to the window that is begun or open; false where it takes none."""
        if self.is_open and not self._may_join(trigger):
            return False
        number = self.calls.add_run(trigger.routine)
        if number is None:
            return False
        self.runs[number] = Run(number, trigger, self.home.routines[trigger.routine].name,
                                self.loop.time())
        self.ledger.joined(number, trigger.accepted.number)
        if self.is_open:
            self.counts["joined"] += 1
            self.ledger.opened(self._driven())
        return True

    def _may_join(self, trigger: Trigger) -> bool:
        if not self.calls.can_join or self.is_stopping or self.is_paused:
            return False
        strayed = self._strayed()
        if strayed & self.home.routines[trigger.routine].devices:
            return False  # it has to see where the device is, and that is told between two windows
        wants_quiet = bool(strayed) or self.has_no_probes
        return not wants_quiet or self.loop.time() - self.began < OLDEST

    def _strayed(self) -> set[int]:
        """The devices that were seen elsewhere than the home has them."""
        return self.turned | {device for device, value in self.believed.items()
                              if device not in self.out and self._is_strayed(device, value)}

    def _is_strayed(self, device: int, value: int) -> bool:
        driver = self.drivers[device]
        return driver.value is not None and driver.is_trusted() \
            and not driver.kind.is_near(driver.value, value)

    # -- The loop

    def wake(self) -> None:
        """Something has happened: the loop looks."""
        self._is_awake = True
        if self._waking is not None and not self._waking.done():
            self._waking.set_result(None)

    async def _wait(self, seconds: float | None) -> None:
        if self._is_awake or (seconds is not None and seconds <= 0):
            await asyncio.sleep(0)
        else:
            self._waking = self.loop.create_future()
            timer = None if seconds is None else self.loop.call_later(seconds, self.wake)
            try:
                await self._waking
            finally:
                self._waking = None
                if timer is not None:
                    timer.cancel()
        self._is_awake = False

    def count_all(self) -> None:
        """Counts the devices that are down, between two windows."""
        for device in range(self.home.core_count):
            is_up = self.calls.stand(device).up
            if is_up == (device in self.down):
                self._count(device, is_up)

    async def live(self) -> None:
        """Runs until `stop` has come to its end."""
        while not (self.is_stopping and not self.is_open):
            self._look()
            await self._wait(self._patience())
        self.quiet.set()

    def _patience(self) -> float | None:
        """After how many seconds the loop has to look though nothing happened."""
        if self.is_stopping and not self.is_open:
            return 0
        now, times = self.loop.time(), []
        if self.is_open:
            if any(run.holds is None and not run.outcome for run in self.runs.values()):
                times.append(PATIENCE)
        elif self.queue and not self.is_paused and self._is_reachable():
            times.append(max(self.gather - (now - self.queue[0].at), 0))
        times += [max(self.ask_at[device] - now, 0.01) for device in self._asked()]
        return min(times, default=None)

    def _asked(self) -> list[int]:
        """The devices that are down, and are asked now and then whether they are there. One that
        says itself that it is away is not: it will say that it is back."""
        if not self._may_probe():
            return []
        return [device for device in self.down - self.out.keys()
                if not self.drivers[device].is_away and self.drivers[device].is_reachable()]

    def _may_probe(self) -> bool:
        return not (self.is_paused or (self.is_stopping and not self.is_open))

    def _is_reachable(self) -> bool:
        return all(driver.is_reachable() for driver in self.drivers[: self.home.core_count])

    def _look(self) -> None:
        begin = time.perf_counter()
        while self.answers:
            self._give(*self.answers.popleft())
        self._ask()
        if not self.is_open:
            self._between()
        if self.is_open:
            while self.queue and self._join(self.queue[0]):
                self.queue.popleft()
            self._take_runs()
            self._send_probes()
            self._let_out()
            if self.calls.left() is None:
                self._close()
        self.core_seconds += time.perf_counter() - begin

    # -- After a kill

    def go_on(self, window: Window, told: set[int], numbers: dict[str, int]) -> None:
        """Goes on with the window that a former life left, its end included where the log has it.
        `numbers` are those of the routines. What was under way is called again: at once where the
        way to the device keeps the order, or else when its limit is over."""
        hub = self.calls.hub
        self.last_time = datetime.datetime.fromisoformat(window.at)
        self.window_at, self.window_number = window.at, window.number
        self.began = self.loop.time() - hub.moment / 1000
        for number, accepted in window.triggers.items():
            at = self.loop.time() - max(time.time() - accepted.at, 0)
            trigger = Trigger(accepted, numbers[accepted.routine], at)
            self.runs[number] = Run(number, trigger, accepted.routine, self.loop.time())
            self.runs[number].step(hub.moment, "the hub was started anew")
        for entry in self.calls.entries():
            self._note(entry)
        self.to_tell = [each for each in self.to_tell if each.trigger not in told]
        if hub.opened is None:
            self._let_out()
            self._closed()
            return
        self.is_open = True
        self.quiet.clear()
        for device in range(self.home.core_count):
            if (device in self.down) != (device in hub.down):
                self._count(device, device not in hub.down)
        for go in hub.former:
            self._call_again(go)

    def _call_again(self, go: Go) -> None:
        self.out[go.device] = Out(go, self.loop.time())
        if go.run in self.runs:
            self.runs[go.run].holds = go.device
            self.runs[go.run].state = f"calls {self.home.devices[go.device].label} again"
        if self.drivers[go.device].is_ordered:
            self.ready.append(go)
        else:
            self.loop.call_later(self._limit(go), self._start, go)

    # -- Between two windows

    def _between(self) -> None:
        if not self.is_paused:
            self._restand()
        if self.is_stopping or self.is_paused:
            self.quiet.set()
            return
        self._expire()
        due = self._due_probes()
        is_gathered = bool(self.queue) and self._is_reachable() and (
            len(self.queue) >= MOST_RUNS or self.loop.time() - self.queue[0].at >= self.gather)
        if is_gathered or due:
            self._open()
        else:
            self.quiet.set()

    def _restand(self) -> None:
        """Tells the home where devices are that others turned, and which ones are lost: they say
        that they are away, or a command that was given up has come to them after all."""
        for device in range(self.home.core_count):
            driver, stand = self.drivers[device], self.calls.stand(device)
            is_strayed = self._is_strayed(device, stand.value)
            is_late = is_strayed and self._is_late(device)
            if stand.up and (driver.is_away or is_late):
                self.calls.lose(device)
                self.records.lost(self.home.devices[device].name)
                self._count(device, False)
                if is_late:
                    self.show(device)  # so it is driven to the home's value at once
            is_turned = device in self.turned and not driver.is_away
            if is_strayed and not is_late and (stand.up or is_turned):
                self._found(device)
        self.turned.clear()

    def _is_late(self, device: int) -> bool:
        """Whether the device stands where a command that was given up would have it: then nobody
        turned it, and the home's value stays."""
        driver, now = self.drivers[device], self.loop.time()
        return driver.value is not None and any(
            now < until and driver.kind.is_near(driver.value, value)
            for until, value in self.given_up.get(device, ()))

    def _give_up(self, go: Go) -> None:
        """Notes the value of a command that was not answered."""
        now = self.loop.time()
        kept = [each for each in self.given_up.get(go.device, ()) if each[0] > now]
        until = now + LATEST * self.drivers[go.device].limit
        self.given_up[go.device] = [*kept, (until, go.value)]

    def _found(self, device: int) -> None:
        driver = self.drivers[device]
        if driver.value is None:
            return
        try:
            self.calls.restand(device, driver.value)
        except Refused as refused:
            if refused.status is not Status.NO_VALUE:
                raise
            return
        self.counts["turned"] += 1
        self.records.found(self.home.devices[device].name, self._record_word(device, driver.value))
        if device in self.down:
            self._count(device, True)

    def _record_word(self, device: int, value: int) -> str:
        kind = self.home.devices[device].kind
        return kind.states[value] if kind.states else str(value)

    def _expire(self) -> None:
        """Drops the triggers that have waited for longer than their routine lets them."""
        now = time.time()
        for trigger in [each for each in self.queue
                        if now - each.accepted.at > self.home.routines[each.routine].fresh]:
            self.queue.remove(trigger)
            self.counts["expired"] += 1
            self.ledger.ended([trigger.accepted.number])
            run = Run(0, trigger, self.home.routines[trigger.routine].name, self.loop.time())
            run.outcome, run.cause, run.cause_kind = "expired", "it waited for too long", "expired"
            self.to_tell.append(self._ended(run))
        if self.to_tell:
            self._let_out()

    def _open(self) -> None:
        now = datetime.datetime.now().replace(microsecond=0)
        self.last_time = max(now, self.last_time + SECOND)
        self.window_at = self.last_time.isoformat()
        stands = [self.calls.stand(device) for device in range(self.home.core_count)]
        self.believed = {device: stand.value for device, stand in enumerate(stands) if stand.up}
        self.window_number = self.calls.begin_window(self.window_at, PROBES)
        self.ledger.began(self.window_at)
        self.runs, self.order = {}, []
        while self.queue and self._is_reachable() and self._join(self.queue[0]):
            self.queue.popleft()
        self.calls.window(self.window_number)
        self.began = self.loop.time()
        self.is_open, self.has_no_probes = True, False
        self.quiet.clear()
        self.counts["windows"] += 1
        self.ledger.opened(self._driven())

    def _driven(self) -> list[str]:
        """The names of the devices that the window may drive."""
        numbers = {command.device for run in self.runs.values()
                   for command in self.home.routines[run.trigger.routine].commands
                   if command.job is Job.SET}
        return [self.home.devices[number].name for number in sorted(numbers | self.down)]

    def _close(self) -> None:
        self.calls.close_window()
        self.calls.sync()
        self._closed()
        self.calls.tidy()

    def _closed(self) -> None:
        """The window is closed, and no more can become of it."""
        self.is_open = False
        routines = [self.runs[number].name for number in sorted(self.runs)]
        committed = sum(run.outcome == "committed" for run in self.runs.values())
        if not self.records.has(self.window_at):
            self.records.closed(self.window_number, self.window_at, routines, committed,
                                self.calls.record())
        words = {}
        for device in range(self.home.core_count):
            stand = self.calls.stand(device)
            words[self.home.devices[device].name] = self._record_word(device, stand.value)
        self.ledger.ended(run.trigger.accepted.number for run in self.runs.values())
        self.ledger.closed(words)
        self.ledger.tidy(each.accepted for each in self.queue)
        self.runs, self.order, self.believed = {}, [], {}
        self._changed()
        self.wake()

    # -- Within a window

    def now(self) -> int:
        """The moment, in ms from the window's beginning."""
        return int((self.loop.time() - self.began) * 1000)

    def _take_runs(self) -> None:
        has_moved = True
        while has_moved:
            has_moved, blocked = False, self.calls.blocked_runs()
            for run in list(self.runs.values()):
                if run.outcome or run.holds is not None or blocked >> (run.number - 1) & 1:
                    continue
                turn = self.calls.take(run.number, self.now())
                if isinstance(turn, Go):
                    has_moved = True
                    self._go(run, turn)
                elif isinstance(turn, Waits):
                    self._wait_of(run, turn)
                elif isinstance(turn, (Moved, Over)):
                    has_moved = True
                    for entry in turn.made:
                        self._note(entry)
                    if isinstance(turn, Over) and not run.outcome:
                        self._note(turn.end)

    def _wait_of(self, run: Run, turn: Waits) -> None:
        names = {number: each.name for number, each in self.runs.items()}
        text = waits_text(turn, self.home, names)
        if text != run.state:
            run.state = text
            run.step(self.now(), text)

    def _go(self, run: Run, go: Go) -> None:
        """A device goes out for the run."""
        run.holds = go.device
        self.out[go.device] = Out(go, self.loop.time())
        if run.is_stopped and not run.is_doomed:
            self.lied.add(go.device)
            self._give(go, Dead())
            return
        device = self.home.devices[go.device]
        run.state = f"calls {device.label}" if not run.is_doomed else f"takes {device.label} back"
        text = f"asks {device.label}" if go.task is Task.SENSE else \
            f"{device.label} to {device.kind.word(go.value)}"
        run.step(self.now(), ("back: " if run.is_doomed else "") + text)
        self.ready.append(go)

    def _ask(self) -> None:
        """Asks the devices that are down, ever more seldom. No window waits for them: the core's
        probe is sent to one that has shown itself."""
        now = self.loop.time()
        for device in self._asked():
            if self.ask_at[device] <= now:
                first, longest = BACK_OFF
                self.back_off[device] = min(self.back_off.get(device, first) * 2, longest)
                self.ask_at[device] = now + self.back_off[device]
                self.drivers[device].ask()

    def _due_probes(self) -> list[int]:
        """The devices that are down and to be probed now."""
        if not self._may_probe():
            return []
        return sorted(device for device in self.down - self.out.keys() - self.turned
                      if device in self.lied or (device in self.showed
                                                 and not self.drivers[device].is_away
                                                 and self.drivers[device].is_reachable()))

    def _send_probes(self) -> None:
        for device in self._due_probes():
            self.lied.discard(device)
            self.showed.discard(device)
            go = self.calls.probe(device)
            if go is None:
                self.has_no_probes = True  # the next window has some
            else:
                self.counts["probes"] += 1
                self.out[device] = Out(go, self.loop.time())
                self.ready.append(go)

    def show(self, device: int) -> None:
        """The device has shown itself: where it is counted down it is probed."""
        if device in self.down and device not in self.out:
            self.showed.add(device)
            self.wake()

    def seen(self) -> None:
        """A device was seen elsewhere: between two windows the home is told, and pages are."""
        self.wake()
        self._changed()

    def back(self, device: int) -> None:
        """The device says that it is back: it is asked anew, as one that just went down."""
        if device in self.down:
            self.back_off.pop(device, None)
            self.ask_at[device] = self.loop.time()
            self.wake()

    def _let_out(self) -> None:
        """What was decided goes to the disk, and then to the devices and the world."""
        if self.to_tell or any(go.task in (Task.DRIVE, Task.RESTORE) for go in self.ready):
            self.ledger.sync()  # it knows the trigger of each run that the log of calls has
            self.calls.sync()
        for go in self.ready:
            self._start(go)
        is_other = bool(self.to_tell or self.ready)
        for ended in self.to_tell:
            for watcher in self.watchers:
                watcher.ended(ended)
        # Told first, and noted as done after it: a kill between has it told twice, and not never.
        self.ledger.told([ended.trigger for ended in self.to_tell if ended.run],
                         [ended.trigger for ended in self.to_tell if ended.outcome == "aborted"])
        self.to_tell, self.ready = [], []
        if is_other:
            self._changed()

    def _changed(self) -> None:
        for watcher in self.watchers:
            watcher.changed()

    # -- Calls of devices

    def _start(self, go: Go) -> None:
        out = self.out[go.device]
        out.since = self.loop.time()
        run = self.runs.get(go.run)
        if run is not None and run.first_call is None:
            run.first_call = out.since
        self.counts["calls"] += 1
        out.timer = self.loop.call_later(self._limit(go), self._over, go)
        out.task = self.loop.create_task(self._call(go))

    def _limit(self, go: Go) -> float:
        return self.drivers[go.device].limit * (2 if go.task is Task.RESTORE else 1)

    async def _call(self, go: Go) -> None:
        try:
            answer = await self.drivers[go.device].call(go)
        except asyncio.CancelledError:
            raise
        except Exception:  # a driver that fails is a device that does not answer
            LOG.exception("the driver of %s failed", self.home.devices[go.device].name)
            answer = Dead()
        self.answered(go, answer)

    def answered(self, go: Go, answer: Answer) -> None:
        """An answer has come, with the number of its call. One that comes late is refused by it."""
        self.answers.append((go, answer))
        self.wake()

    def _over(self, go: Go) -> None:
        """The limit of a call is over. While the broker is away it does not run."""
        out = self.out.get(go.device)
        if out is None or out.go.ticket != go.ticket:
            return
        if not self.drivers[go.device].is_reachable():
            out.timer = self.loop.call_later(self._limit(go), self._over, go)
            return
        if out.timer is not None and self.loop.time() - out.timer.when() > SLEPT:
            # This process was asleep: what the device said meanwhile is perhaps not heard yet.
            out.timer = self.loop.call_later(min(self._limit(go), HEARING), self._over, go)
            return
        if out.task is not None:
            out.task.cancel()
        self.answered(go, Dead())

    def linked(self) -> None:
        """Broker or bridge are back, or away. Where they are back the limits begin anew, since the
        calls do, and each device is asked where it is: what it said meanwhile was not heard."""
        for device, out in self.out.items():
            if out.timer is not None and self.drivers[device].is_reachable():
                out.timer.cancel()
                out.timer = self.loop.call_later(self._limit(out.go), self._over, out.go)
        for at, driver in enumerate(self.drivers):
            if driver.is_reachable():
                self.loop.call_later(at * ASKING, driver.ask)
        self.wake()
        self._changed()

    def _give(self, go: Go, answer: Answer) -> None:
        run = self.runs.get(go.run)
        try:
            made = self.calls.give(go, answer, self.now())
        except Refused as refused:
            if refused.status in (Status.NOT_OUT, Status.NO_WINDOW):
                self.counts["late"] += 1
                LOG.info("a late answer of %s was refused", self.home.devices[go.device].name)
                return
            if refused.status is not Status.DIFFERS or not isinstance(answer, Found):
                raise
            self.turned.add(go.device)
            answer = Dead()
            made = self.calls.give(go, answer, self.now())
        out = self.out.pop(go.device)
        if out.timer is not None:
            out.timer.cancel()
        is_dead = isinstance(answer, Dead)
        if is_dead:
            self.counts["dead"] += 1
            if out.task is not None and go.task in (Task.DRIVE, Task.RESTORE):
                self._give_up(go)
        elif go.task in (Task.DRIVE, Task.RESTORE):
            self.believed[go.device] = go.value
        elif go.task is Task.SENSE:
            self.believed[go.device] = go.stood
        if out.task is not None:
            for watcher in self.watchers:
                watcher.called(go.device, self.loop.time() - out.since, is_dead)
        if run is not None:
            run.holds = None
            if is_dead:
                text = "was turned" if go.device in self.turned else "did not answer"
                run.step(self.now(), f"{self.home.devices[go.device].label} {text}")
        for entry in made:
            self._note(entry)

    # -- What is told

    def _note(self, entry: Entry) -> None:
        run = self.runs.get(entry.run)
        match entry.kind:
            case EntryKind.FELL:
                self._count(entry.device, False)
            case EntryKind.ROSE:
                self._count(entry.device, True)
            case EntryKind.PLACED:
                self.order.insert(min(entry.place, len(self.order)), entry.run)
            case EntryKind.DOOMED if run is not None:
                run.is_doomed, run.state = True, "is taken back"
                run.cause = cause_text(entry, self.home, run.trigger.routine)
                run.cause_kind = cause_kind(entry)
                if run.is_stopped:
                    run.cause, run.cause_kind = self.stop_text, "stopped"
                elif self.turned and entry.cause.name in ("MUST_DOWN", "LOST"):
                    device = self.home.routines[run.trigger.routine].commands[entry.command].device
                    if device in self.turned:
                        run.cause = f"{self.home.devices[device].label} was turned meanwhile"
                        run.cause_kind = "turned"
                run.step(self.now(), f"is taken back: {run.cause}")
            case EntryKind.COMMITTED | EntryKind.ABORTED if run is not None:
                run.outcome = run.state = entry.kind.name.lower()
                self.counts[run.outcome] += 1
                run.step(self.now(), run.outcome)
                if run.outcome == "aborted":
                    if entry.run in self.order:
                        self.order.remove(entry.run)
                self.to_tell.append(self._ended(run))

    def _ended(self, run: Run) -> Ended:
        now = self.loop.time()
        first = None if run.first_call is None else (run.first_call - run.trigger.at) * 1000
        routine = self.home.routines[run.trigger.routine]
        return Ended(run.trigger.accepted.number, run.name, routine.label, run.outcome, run.cause,
                     run.cause_kind, run.trigger.accepted.source, self.window_at, run.number,
                     time.time(), (run.begun - run.trigger.at) * 1000, first,
                     (now - run.trigger.at) * 1000, tuple(run.steps))

    def _count(self, device: int, is_up: bool) -> None:
        if is_up:
            self.down.discard(device)
            self.back_off.pop(device, None)
            self.ask_at.pop(device, None)
            self.showed.discard(device)
        else:
            self.down.add(device)
            self.believed.pop(device, None)
            self.ask_at[device] = self.loop.time() + self.back_off.setdefault(device, BACK_OFF[0])
        for watcher in self.watchers:
            watcher.counted(device, is_up)

    # -- Stops

    def stop_run(self, trigger: int) -> bool:
        """Has the run of this trigger taken back, or takes the trigger out of the queue; false
        where it is neither. A step that may fail for the routine is passed over, not undone."""
        for waiting in self.queue:
            if waiting.accepted.number == trigger:
                self.queue.remove(waiting)
                self.ledger.ended([trigger])
                self._changed()
                return True
        for run in self.runs.values():
            if run.trigger.accepted.number == trigger and not run.outcome:
                run.is_stopped = True
                run.step(self.now(), "is to be stopped")
                self.wake()
                return True
        return False

    async def stop(self, drain: float) -> None:
        """Takes no more triggers, lets the open window end for so many seconds, and has taken back
        what then still runs. What is queued stays in the ledger."""
        self.is_stopping, self.stop_text = True, "the hub was stopped"
        self.wake()
        try:
            await asyncio.wait_for(self._until_quiet(), drain)
        except asyncio.TimeoutError:
            for run in self.runs.values():
                run.is_stopped = True
            self.wake()
            longest = max((driver.limit for driver in self.drivers), default=1.0)
            try:
                await asyncio.wait_for(self._until_quiet(), 4 * longest + 1)
            except asyncio.TimeoutError:
                LOG.error("the open window did not end; the next start takes it back")

    async def _until_quiet(self) -> None:
        while self.is_open:
            self.quiet.clear()
            await self.quiet.wait()

    async def pause(self) -> None:
        """From now on no window is opened; returns at a quiet moment. `resume` ends it."""
        self.is_paused = True
        self.wake()
        await self._until_quiet()

    def resume(self) -> None:
        """Windows are opened again."""
        self.is_paused = False
        self.wake()

    # -- What a page shows

    def shown(self) -> dict[str, Any]:
        """How all stands, as JSON."""
        runs = [{"trigger": run.trigger.accepted.number, "run": run.number, "routine": run.name,
                 "label": self.home.routines[run.trigger.routine].label,
                 "source": run.trigger.accepted.source, "state": run.state, "cause": run.cause,
                 "outcome": run.outcome, "is_doomed": run.is_doomed}
                for run in self.runs.values()]
        queue = [{"trigger": each.accepted.number,
                  "routine": self.home.routines[each.routine].name} for each in self.queue]
        return {"open": self.is_open, "window": self.window_at if self.is_open else "",
                "runs": runs, **self._order(), "queue": queue,
                "devices": [self._device(number) for number in range(len(self.home.devices))],
                "counts": dict(self.counts), "stopping": self.is_stopping,
                "away": self._away()}

    def _away(self) -> list[str]:
        """What carries calls, and is not there."""
        makers = {self.home.devices[number].maker for number in range(self.home.core_count)
                  if not self.drivers[number].is_reachable()}
        names = {"zigbee2mqtt": "Zigbee2MQTT or the broker", ASSISTANT: "Home Assistant"}
        return sorted({names.get(maker, "the broker") for maker in makers})

    def _order(self) -> dict[str, list[str]]:
        """The order so far: what is final, with the failures of devices, and the runs after it,
        where they are placed now."""
        items = self.calls.final_items() if self.is_open else []
        done = {item.run for item in items if item.kind is ItemKind.RAN}
        final = []
        for item in items:
            if item.kind is ItemKind.RAN:
                final.append(self._label(item.run))
            else:
                word = "fails" if item.kind is ItemKind.FAILED else "is back"
                final.append(f"{self.home.devices[item.device].label} {word}")
        return {"final": final, "order": [self._label(run) for run in self.order
                                          if run not in done]}

    def _label(self, number: int) -> str:
        return self.home.routines[self.runs[number].trigger.routine].label

    def _device(self, number: int) -> dict[str, Any]:
        device, driver, out = self.home.devices[number], self.drivers[number], self.out.get(number)
        home = self.believed.get(number)
        if number < self.home.core_count and not self.is_open:
            home = self.calls.stand(number).value
        call = "" if out is None else (
            f"{out.go.task.name.lower()} for "
            + (self.runs[out.go.run].name if out.go.run in self.runs else "a look"))
        seen = driver.value
        if seen is not None and home is not None and device.kind.is_near(seen, home):
            seen = home
        return {"name": device.name, "label": device.label, "call": call,
                "home": "" if home is None else device.kind.word(home),
                "seen": "" if seen is None else device.kind.word(seen),
                "up": number not in self.down, "there": not driver.is_away,
                "is_used": number < self.home.core_count}
