"""The history of a window: its entries, and what follows from them by going along them once.

In `History` a `run` and a `device` are numbers; runs count from 1, devices and commands from 0;
moments are in ms.
"""
from __future__ import annotations

from collections import Counter
from dataclasses import dataclass
from typing import NamedTuple

from .gaps import Gap
from .serial import DOWN, FINE, SKIPPED, Answer, Back, Command, Failed, Item, Kind, Ran, Run, Stand

MOST = 2**64 - 1  # the greatest moment; sums stay at it


class Mode(NamedTuple):
    model: str  # wv, gsv, psv or ev
    scheduler: str  # fcfs, jit or timeline


@dataclass(frozen=True)
class Arrived:
    run: int
    moment: int


@dataclass(frozen=True)
class Placed:
    run: int
    place: int
    moment: int


@dataclass(frozen=True)
class Did:
    run: int
    command: int
    answer: Answer  # `FINE`, `DOWN`, `SKIPPED`, or the value that a read found


@dataclass(frozen=True)
class Undid:
    run: int
    device: int
    drove: bool


@dataclass(frozen=True)
class Fell:
    device: int


@dataclass(frozen=True)
class Rose:
    device: int


@dataclass(frozen=True)
class Doomed:
    run: int
    cause: Cause


@dataclass(frozen=True)
class Ended:
    run: int
    cause: Cause | None  # None where it committed


@dataclass(frozen=True)
class MustDown:
    command: int


@dataclass(frozen=True)
class Refuted:
    command: int
    found: int


@dataclass(frozen=True)
class Lost:
    device: int


@dataclass(frozen=True)
class Revoked:
    lender: int
    device: int
    deadline: int
    moment: int


@dataclass(frozen=True)
class DownAtEnd:
    device: int


Entry = Arrived | Placed | Did | Undid | Fell | Rose | Doomed | Ended
Cause = MustDown | Refuted | Lost | Revoked | DownAtEnd


class History:
    def __init__(
        self, runs: dict[int, Run], mode: Mode, first: list[Stand], kinds: list[Kind]
    ) -> None:
        self.runs, self.mode, self.first, self.kinds = runs, mode, first, kinds
        self.entries: list[Entry] = []
        self.line: list[Item] = []  # when all runs have ended it is the serial order
        self.arrived: dict[int, int] = {}  # the moment of each run
        self.placed: dict[int, int] = {}  # how many runs were placed before each run
        # of each placed run the planned start and end on each of its devices
        self.plans: dict[int, dict[int, tuple[int, int]]] = {}
        self.answers: dict[int, list[Answer]] = {run: [] for run in runs}
        self.registers = dict.fromkeys(runs, 0)
        # its view of each device, which its first access there fixes
        self.sees_up: dict[int, dict[int, bool]] = {run: {} for run in runs}
        # what it wrote last on each device
        self.wrote: dict[int, dict[int, int]] = {run: {} for run in runs}
        self.undone: dict[int, set[int]] = {run: set() for run in runs}
        self.dooms: dict[int, Cause] = {}
        self.ends: dict[int, Cause | None] = {}  # an end of None is a commit
        self.up = [stand.up for stand in first]
        self.counts = Counter[tuple[type, int]]()  # of failures and restarts
        self.last_write = [stand.value for stand in first]

    # What is said of a run.

    def is_live(self, run: int) -> bool:
        return run in self.placed and run not in self.ends

    def is_committed(self, run: int) -> bool:
        return run in self.ends and self.ends[run] is None

    def is_pending(self, run: int, device: int) -> bool:
        """Whether a command of the run on the device has no answer."""
        return self.runs[run].last.get(device, -1) >= len(self.answers[run])

    def is_open(self, run: int, device: int) -> bool:
        return self.is_live(run) and run not in self.dooms and self.is_pending(run, device)

    def has_skipped(self, run: int, device: int) -> bool:
        """Whether all commands of the run on the device were skipped."""
        return not self.is_pending(run, device) and device not in self.sees_up[run]

    def next_command(self, run: int) -> Command | None:
        done = len(self.answers[run])
        commands = self.runs[run].commands
        return commands[done] if done < len(commands) else None

    # The serialization line.

    def runs_of(self, items: list[Item]) -> list[int]:
        """The live runs among the items, in their order."""
        return [item.run for item in items if isinstance(item, Ran) and item.run not in self.ends]

    def live_before(self, run: int) -> list[int]:
        return self.runs_of(self.line[: self.line.index(Ran(run))])

    def event_place(self, device: int) -> int:
        """Where a failure or a restart goes: before the first run that is open there and has no
        access there.
        """
        if self.mode.model != "wv":
            for place, item in enumerate(self.line):
                if (
                    isinstance(item, Ran)
                    and device not in self.sees_up[item.run]
                    and self.is_open(item.run, device)
                ):
                    return place
        return len(self.line)

    # Planned times.

    def whole_end(self, run: int) -> int:
        """The latest planned end on a device that no committed run behind it has written, and where
        it has not skipped all.
        """
        behind = self.line[self.line.index(Ran(run)) + 1 :]
        committed = [
            item.run for item in behind if isinstance(item, Ran) and self.is_committed(item.run)
        ]
        passed = {device for device in self.plans[run] if self.has_skipped(run, device)}.union(
            *(self.wrote[x] for x in committed)
        )
        return max(
            (end for device, (_, end) in self.plans[run].items() if device not in passed), default=0
        )

    def free(self, run: int, device: int, items: list[Item]) -> int:
        """From when on the device is free for a run behind these items. Only the timeline heeds
        it.
        """
        if self.mode.scheduler != "timeline":
            return 0
        times = [0]
        for before in self.runs_of(items):
            if self.is_open(before, device):
                times.append(self.plans[before][device][1])
            if device in self.runs[run].reads_first and device in self.runs[before].writes:
                times.append(self.whole_end(before))
        return max(times)

    def planned_times(self, run: int, items: list[Item], moment: int) -> dict[int, tuple[int, int]]:
        """The planned start and end of the run on each of its devices, behind these items."""
        frees = {device: self.free(run, device, items) for device in self.runs[run].footprint}
        plan: dict[int, tuple[int, int]] = {}
        time = moment
        for command in self.runs[run].commands:
            start = max(time, frees[command.device])
            time = min(start + command.ms, MOST)
            plan[command.device] = (plan.get(command.device, (start,))[0], time)
        return plan

    # One entry more.

    def add(self, entry: Entry) -> None:
        match entry:
            case Arrived(run, moment):
                self.arrived[run] = moment
            case Placed(run, place, moment):
                self.add_run(run, place, moment)
            case Did(run, c, answer):
                self.add_answer(run, self.runs[run].commands[c], answer)
            case Undid(run, device, _):
                self.undone[run].add(device)
            case Fell(device):
                self.add_event(Failed, device)
                self.up[device] = False
            case Rose(device):
                self.add_event(Back, device)
                self.up[device] = True
            case Doomed(run, cause):
                self.dooms[run] = cause
            case Ended(run, cause):
                self.ends[run] = cause
                if cause is not None:
                    self.line.remove(Ran(run))
        self.entries.append(entry)

    def add_run(self, run: int, place: int, moment: int) -> None:
        """The timeline first divides the line: what stands before the run, and what behind it."""
        items, behind = self.line, []
        if self.mode.scheduler == "timeline":
            gap = Gap(self, run, moment)
            items, behind = gap.before, gap.behind
        self.plans[run] = self.planned_times(run, items, moment)
        self.placed[run] = len(self.placed)
        self.line = items + behind
        self.line.insert(place, Ran(run))

    def add_answer(self, run: int, command: Command, answer: str | int) -> None:
        self.answers[run].append(answer)
        if answer != SKIPPED:
            self.sees_up[run].setdefault(command.device, answer != DOWN)
        if answer == FINE:
            driven = command.driven(self.kinds[command.device], self.registers[run])
            self.wrote[run][command.device] = self.last_write[command.device] = driven
        self.registers[run] = command.register_after(self.registers[run], answer)

    def add_event(self, event: type, device: int) -> None:
        self.counts[event, device] += 1
        self.line.insert(self.event_place(device), event(device, self.counts[event, device]))
