"""Calls of a home that keeps a log, drawn: a seed makes the same calls again on a home that shows the same."""
import datetime
import json
import os
import random
import shutil
from dataclasses import dataclass
from typing import Any, Callable, Iterator

from reference import days

from lazbendix import Answer, CallLog, Dead, Found, Go, LoggedHub, Model, Refused, Scheduler, Status, Task, Worked

MODES = [(Model.EVENTUAL, Scheduler.FCFS), (Model.EVENTUAL, Scheduler.JIT), (Model.EVENTUAL, Scheduler.TIMELINE),
         (Model.PARTITIONED, Scheduler.FCFS), (Model.GLOBAL, Scheduler.FCFS), (Model.WEAK, Scheduler.FCFS)]
PROBES = 3


def drawn_script(draw: random.Random, has_windows: bool = True) -> bytes:
    """Devices and routines of a drawn day, and its windows or none."""
    day = days.day(draw)
    return json.dumps(day if has_windows else day | {"windows": []}).encode()


def answered(call: Callable[..., Any], *words: Any) -> Any:
    """What the call answers, or the status with which it is refused."""
    try:
        return call(*words)
    except Refused as refused:
        return refused.status


def outs(hub: LoggedHub) -> list[Go]:
    """The calls that are out."""
    every = [answered(hub.out, device) for device in range(hub.counts().devices)]
    return [go for go in every if isinstance(go, Go)]


def view(hub: LoggedHub) -> Any:
    """All that a home shows, but for the moment of a step that waited and the marks of runs that need not be taken."""
    counts = hub.counts()
    stands = [answered(hub.stand, device) for device in range(counts.devices)]
    entries = [hub.entry(at) for at in range(hub.entry_count())]
    texts = [answered(hub.record, True), hub.head(), [hub.run_count(number) for number in range(counts.windows)]]
    return [counts, stands, entries, texts, outs(hub), answered(hub.left), answered(lambda: list(hub.final_items())),
            dict(hub.queue), sorted(hub.down), hub.opened, hub.begun, hub.last_time]


@dataclass
class Play:
    """Draws the next call of a home from what it shows. `joined` counts the runs that joined an open window."""

    draw: random.Random
    clock: int = 0
    second: int = 0
    played: int = 0
    joined: int = 0

    def twin(self) -> "Play":
        """One that will draw the same."""
        draw = random.Random()
        draw.setstate(self.draw.getstate())
        return Play(draw, self.clock, self.second, self.played, self.joined)

    def step(self, hub: LoggedHub) -> Any:
        if self.draw.random() < 0.1:
            return answered(hub.trigger, self.draw.randrange(hub.counts().routines + 1))
        if hub.opened is not None:
            return self.in_window(hub)
        return self.begun(hub) if hub.begun is not None else self.between(hub)

    def between(self, hub: LoggedHub) -> Any:
        self.clock = 0
        device, roll = self.draw.randrange(hub.counts().devices), self.draw.random()
        if roll < 0.2:
            return answered(hub.restand, device, self.draw.randrange(4))
        if roll < 0.3:
            return answered(hub.lose, device)
        if roll < 0.5:
            return answered(hub.window, self.draw.randrange(hub.counts().windows + 1))
        self.second += 1
        time = datetime.datetime(2031, 1, 1) + datetime.timedelta(seconds=self.second)
        return answered(hub.begin_window, time.isoformat(), PROBES)

    def begun(self, hub: LoggedHub) -> Any:
        roll = self.draw.random()
        if roll < 0.7:
            return self.add(hub)
        number = hub.begun if roll < 0.95 else self.draw.randrange(hub.counts().windows)
        return answered(hub.window, number)

    def add(self, hub: LoggedHub) -> Any:
        follows = self.draw.choice([0, 0, 0, self.draw.randrange(4)])
        if hub.queue and self.draw.random() < 0.6:
            return answered(hub.add_run_of, self.draw.choice(list(hub.queue)), follows)
        return answered(hub.add_run, self.draw.randrange(hub.counts().routines), follows)

    def in_window(self, hub: LoggedHub) -> Any:
        roll, under_way = self.draw.random(), outs(hub)
        self.clock += self.draw.choice([0, 0, 1, 40, 3000])
        if roll < 0.02:
            run = self.add(hub)
            self.joined += not isinstance(run, Status)
            return run
        if roll < 0.3 and under_way:
            return self.give(hub, self.draw.choice(under_way))
        if roll < 0.4:
            return answered(hub.probe, self.draw.randrange(hub.counts().devices))
        if roll < 0.5 or hub.left() is None:
            closed = answered(hub.close_window)
            self.played += closed is None
            return closed
        return answered(hub.take, self.draw.randrange(1, hub.run_count(hub.opened or 0) + 2), self.clock)

    def give(self, hub: LoggedHub, go: Go) -> Any:
        told: Answer = Dead()
        if self.draw.random() < 0.85:
            told = Found(go.stood) if go.task is Task.SENSE else Worked()
        if self.draw.random() < 0.05:
            told = Found(self.draw.randrange(4))
        return answered(hub.give, go.device, go.ticket - (self.draw.random() < 0.05), told, self.clock)


def copied(log: CallLog, path: str) -> CallLog:
    """A log that has what this one has on the disk."""
    shutil.copyfile(log.path, path)
    return CallLog(path)


def points(folder: str, mode: tuple[Model, Scheduler], seed: int, wanted: int) -> Iterator[tuple[LoggedHub, LoggedHub, Play]]:
    """A home at random points of its play, and the one that its log makes then."""
    draw = random.Random(seed)
    script, path = drawn_script(draw, draw.random() < 0.5), os.path.join(folder, f"{seed}")
    play = Play(draw)
    log = CallLog(path)
    hub = log.hub(script, *mode)
    for point in range(wanted):
        for _ in range(draw.randrange(1, 60)):
            play.step(hub)
        if draw.random() < 0.3:
            hub.let_out()
        log.sync()
        if point % 5 == 4 and hub.opened is None and hub.begun is None:
            hub.let_out()
            hub.begin_anew()
        with copied(log, f"{path}-{point}") as other:
            again = other.hub(script, *mode)
            yield hub, again, play
            again.close()
    hub.close()
    log.close()
