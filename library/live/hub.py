#!/usr/bin/env python3
"""A small live hub over the library: triggers come at any moment, and devices are called over their sockets.

    python3 library/live/hub.py --devices PORTS [--journal FOLDER] [--limit MS] [--gap MS] [--not-twice NAME,..] [TRIGGERS]

A trigger is a line with a routine's name, of standard input or of the file TRIGGERS; `wait MS` there lets time pass. PORTS is
what devices.py prints. A device that has not answered when the limit is over counts as dead, and one that is down is probed
again after the gap. Prints a line for each trigger that was taken and for each that has ended. Killed, and started again with
the same folder, it goes on in the window that was open; a call to a device that must not be made twice counts as dead then.
README.md says how it works.
"""
import argparse
import asyncio
import contextlib
import datetime
import os
import sys
from typing import IO

HERE = os.path.dirname(os.path.abspath(__file__))
sys.path[:0] = [HERE, os.path.join(HERE, "..", "..", "python")]

from devices import home
from journals import Journal
from wires import Wire

from lazbendix import (Answer, CallLog, Closed, Dead, Ended, Entry, EntryKind, Found, Go, LoggedHub, LogRefused, Over, Refused, Report,
                       Status, Stood, Triggered, Waits)

MOST_PROBES = 100  # rounds of a window
MOST_RECORDS = 10000  # of a log, before it is begun anew
PATIENCE = 0.1  # s: two waits of a run end by time alone, so it is taken again after so long
SECOND = datetime.timedelta(seconds=1)

ENDS = (EntryKind.COMMITTED, EntryKind.ABORTED)

Call = asyncio.Task[tuple[Go, Answer]]


class LiveHub:
    def __init__(self, log: CallLog, hub: LoggedHub, wires: list[Wire], journal: Journal, asked: argparse.Namespace) -> None:
        self.log, self.hub, self.wires, self.journal, self.asked = log, hub, wires, journal, asked
        self.gap = asked.gap / 1000  # s: the time between two probes of a device that is down
        self.names = [hub.device_name(d) for d in range(hub.counts().devices)]
        self.routines = [hub.routine_name(r) for r in range(hub.counts().routines)]
        self.has_all = False
        self.news = asyncio.Event()  # a trigger came, or an answer
        self.turned: dict[int, int] = {}

    def trigger(self, routine: str) -> bool:
        """Takes a trigger; false where there is no such routine."""
        if routine in self.routines:
            self.hub.trigger(self.routines.index(routine))
            self.news.set()
        return routine in self.routines

    def end(self) -> None:
        """After the triggers that have come, `live` returns."""
        self.has_all = True
        self.news.set()

    async def live(self) -> None:
        """The window that was open as the hub was killed; then a window from a trigger to the next quiet moment, and again, until
        the end."""
        if self.hub.opened is not None or self.hub.begun is not None:
            await self.go_on()
        while await self.is_triggered():
            await self.look()
            await self.play()
        self.let_out(set())
        self.journal.end_day()

    async def is_triggered(self) -> bool:
        """Waits for a trigger; false where no more come."""
        while not self.hub.queue and not self.has_all:
            await self.news.wait()
            self.news.clear()
        return bool(self.hub.queue)

    # What leaves the hub.

    def let_out(self, calls: set[Call]) -> None:
        """Starts the calls that are to be made and hands the reports on. The log is synced before, where one of them asks for it."""
        out = self.hub.let_out()
        calls |= {self.start(go) for go in out.calls}
        for report in out.reports:
            self.report(report)

    def start(self, go: Go) -> Call:
        async def made() -> tuple[Go, Answer]:
            return go, await self.wires[go.device].call(go)

        call = asyncio.create_task(made())
        call.add_done_callback(lambda _: self.news.set())
        return call

    def report(self, report: Report) -> None:
        match report:
            case Triggered():
                print(report.trigger, self.routines[report.routine], "taken", flush=True)
            case Ended():
                print(report.trigger, report.end.kind.name.lower(), flush=True)
            case Stood():
                name, stand = self.names[report.device], report.stand
                if stand.up:
                    value = self.hub.value_name(report.device, stand.value) or str(stand.value)
                    self.journal.found(report.number, name, value)
                else:
                    self.journal.lost(report.number, name)
            case Closed():
                runs = [{"routine": self.routines[routine or 0]} for routine in report.routines]
                window = {"at": report.at, "runs": runs}
                self.journal.closed(report.number, report.window, window, list(report.triggers), report.text)

    # After a kill.

    async def go_on(self) -> None:
        """Goes on in the window that was open. A call of the former life may still be on its way to a device, so the time limit is
        waited out before the first call of this one."""
        if self.hub.former:
            await asyncio.sleep(self.asked.limit / 1000)
        self.hub.call_again([d for d, name in enumerate(self.names) if name in self.asked.not_twice.split(",")])
        await self.play()

    # Between two windows.

    async def look(self) -> None:
        """Tells the home where devices were found that others turned, and which do not answer. One that is counted down is not
        asked, but left to a probe."""
        stands = {device: stand.value for device in range(len(self.wires)) if (stand := self.hub.stand(device)).up}
        found = await asyncio.gather(*(self.wires[device].value() for device in stands))
        for (device, value), at in zip(stands.items(), found):
            if at is None:
                self.hub.lose(device)
            elif at != value:
                self.restand(device, at)

    def restand(self, device: int, value: int) -> None:
        try:
            self.hub.restand(device, value)
        except Refused as refused:
            if refused.status is not Status.NO_VALUE:
                raise  # else it stands at what is no value of it: the home keeps its own

    def time(self) -> str:
        """The time of the next window: now, or a second after the last one where that is later."""
        now, last = datetime.datetime.now().replace(microsecond=0), self.hub.last_time
        return max(now, datetime.datetime.fromisoformat(last) + SECOND if last else now).isoformat()

    async def play(self) -> None:
        """Opens a window with the triggers that have come, or takes the one that a former life has begun or opened. Closes it at its
        first quiet moment."""
        if self.hub.opened is None and self.hub.begun is None:
            self.hub.begin_window(self.time(), probes=MOST_PROBES)
        window = Window(self)
        if self.hub.opened is None:
            window.join()
            assert self.hub.begun is not None
            self.hub.window(self.hub.begun)
        await window.steps()
        self.hub.close_window()
        for device, value in self.turned.items():
            self.restand(device, value)
        self.turned.clear()
        self.let_out(set())
        if self.log.count > self.asked.records:
            self.hub.begin_anew()

    async def wait(self) -> None:
        """Waits for a trigger or an answer, for some time at most."""
        with contextlib.suppress(asyncio.TimeoutError):
            await asyncio.wait_for(self.news.wait(), PATIENCE)
        self.news.clear()


class Window:
    """The window that is open: its runs, the calls that are out, and the devices that are down."""

    def __init__(self, live: LiveHub) -> None:
        self.live, self.hub, self.loop = live, live.hub, asyncio.get_running_loop()
        is_open = self.hub.opened is not None
        self.begin = self.loop.time() - (self.hub.moment / 1000 if is_open else 0)
        ended = {entry.run for entry in self.hub.entries() if entry.kind in ENDS} if is_open else set()
        self.runs = [run for run in self.hub.runs() if run not in ended]  # those that have not ended
        self.calls: set[Call] = set()
        self.probes = dict.fromkeys(self.hub.down, self.loop.time())  # when each device that is down is probed next

    def moment(self) -> int:
        return int((self.loop.time() - self.begin) * 1000)

    def join(self) -> None:
        """Makes a run of each trigger that has come. Where the window has all the runs that it may, the others wait for its end."""
        for trigger in list(self.hub.queue):
            try:
                self.runs.append(self.hub.add_run_of(trigger))
            except Refused as refused:
                if refused.status is not Status.TOO_MANY:
                    raise
                return

    async def steps(self) -> None:
        """Triggers join, runs are taken, and the calls that they ask for are made, until nothing is left to do."""
        while True:
            self.join()
            if self.hub.left() is None:
                return
            self.probe()
            if not self.take():
                self.live.let_out(self.calls)
                await self.live.wait()
                self.give()

    def take(self) -> bool:
        """Takes each run that has not ended and is not blocked. Whether one of them did not wait."""
        has_moved, blocked = False, self.hub.blocked_runs()
        for run in [run for run in self.runs if not blocked >> (run - 1) & 1]:
            turn = self.hub.take(run, self.moment())
            if isinstance(turn, Over):
                self.runs.remove(run)
            has_moved |= not isinstance(turn, Waits)
        return has_moved

    def probe(self) -> None:
        """Sends a probe to each device that is down, as often as the gap says and as long as one is left."""
        for device, at in self.probes.items():
            if at > self.loop.time():
                continue
            self.probes[device] = self.loop.time() + self.live.gap
            try:
                self.hub.probe(device)
            except Refused as refused:
                if refused.status is not Status.NO_PROBE:
                    raise

    def give(self) -> None:
        """Hands in each answer that has come, and notes which devices are down. One that somebody turned is not probed, since
        that would drive it back."""
        for call in [call for call in self.calls if call.done()]:
            self.calls.remove(call)
            for entry in self.given(*call.result()):
                if entry.kind is EntryKind.FELL and entry.device not in self.live.turned:
                    self.probes[entry.device] = self.loop.time() + self.live.gap
                elif entry.kind is EntryKind.ROSE:
                    self.probes.pop(entry.device, None)

    def given(self, go: Go, answer: Answer) -> tuple[Entry, ...]:
        """Hands the answer in. A sense that finds the device elsewhere is told as dead, and the home after the window."""
        try:
            return self.hub.give(go.device, go.ticket, answer, self.moment())
        except Refused as refused:
            if refused.status is not Status.DIFFERS or not isinstance(answer, Found):
                raise
            self.live.turned[go.device] = answer.value
            return self.hub.give(go.device, go.ticket, Dead(), self.moment())


async def read_triggers(live: LiveHub, lines: IO[str]) -> None:
    """Hands each line on as a trigger, as it comes."""
    loop = asyncio.get_running_loop()
    while line := await loop.run_in_executor(None, lines.readline):
        words = line.split()
        if words[:1] == ["wait"] and len(words) == 2 and words[1].isdigit():
            await asyncio.sleep(int(words[1]) / 1000)
        elif words and not live.trigger(words[0]):
            print(f"hub: there is no routine {words[0]}", file=sys.stderr)
    live.end()


def read_ports(path: str) -> dict[str, int]:
    with open(path, encoding="utf-8") as file:
        return {name: int(port) for name, port in (line.split() for line in file if line.count(" ") == 1)}


async def main() -> None:
    options = argparse.ArgumentParser(description=(__doc__ or "").splitlines()[0])
    options.add_argument("triggers", nargs="?")
    options.add_argument("--devices", required=True)
    options.add_argument("--journal", default="journal")
    options.add_argument("--limit", type=float, default=1000, help="the time in which a device has to answer, in ms")
    options.add_argument("--gap", type=float, default=10000, help="the time between two probes of a device that is down, in ms")
    options.add_argument("--not-twice", default="", help="devices whose calls are not made again after a kill")
    options.add_argument("--records", type=int, default=MOST_RECORDS, help="of a log, before it is begun anew")
    options.add_argument("--other-version", action="store_true", help="try a log of another version of the library")
    asked = options.parse_args()
    ports, script = read_ports(asked.devices), home()
    os.makedirs(asked.journal, exist_ok=True)
    with open(os.path.join(HERE, "home.json"), "rb") as file:
        text = file.read()
    with CallLog(os.path.join(asked.journal, "calls")) as log, log.hub(text, other_version=asked.other_version) as hub:
        wires = [Wire(ports[device["name"]], asked.limit / 1000) for device in script["devices"]]
        live = LiveHub(log, hub, wires, Journal(asked.journal, script, hub.head(), hub.is_new), asked)
        print("started", f"in a window with {len(hub.former)} calls out" if hub.opened is not None else "between windows", flush=True)
        lines = open(asked.triggers, encoding="utf-8") if asked.triggers else sys.stdin
        try:
            await asyncio.gather(read_triggers(live, lines), live.live())
        except LogRefused as refused:
            print(f"hub: {refused}", file=sys.stderr, flush=True)
            os._exit(1)  # nothing may leave this home any more; the next start finds what is on the disk
        for wire in wires:
            wire.close()


if __name__ == "__main__":
    try:
        asyncio.run(main())
    except LogRefused as no_log:
        sys.exit(f"hub: {no_log}")
