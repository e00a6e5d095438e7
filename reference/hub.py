"""The hub: the step of a run, what comes of a grip that is given back, and the detector's probes.

It keeps the history, as it is, and the grips that are out. All else it reads off these two.
"""
from __future__ import annotations

from dataclasses import dataclass

from .devices import Device, Drive, Grip, Probe, Sense, Slip, Task
from .gaps import Gap
from .history import (
    MOST,
    Arrived,
    Cause,
    Did,
    Doomed,
    DownAtEnd,
    Ended,
    Entry,
    Fell,
    History,
    Lost,
    Mode,
    MustDown,
    Placed,
    Refuted,
    Revoked,
    Rose,
    Undid,
)
from .serial import DOWN, FINE, SKIPPED, Answer, Command, Item, Kind, Ran, Run, Stand

PATIENCE = 10_000  # ms


@dataclass(frozen=True)
class Follow:
    run: int


@dataclass(frozen=True)
class Denied:
    device: int
    run: int


@dataclass(frozen=True)
class Busy:
    device: int


@dataclass(frozen=True)
class Behind:
    device: int
    run: int


@dataclass(frozen=True)
class Dirty:
    device: int
    run: int


@dataclass(frozen=True)
class Strict:
    run: int


Why = Follow | Denied | Busy | Behind | Dirty | Strict  # a run waits
WAITS = (Follow, Denied, Busy, Behind, Dirty, Strict)


@dataclass(frozen=True)
class StillLive:
    run: int


@dataclass(frozen=True)
class StillOut:
    device: int


@dataclass(frozen=True)
class GoesOut:
    """The run goes out with its device, for its next command or for an undo."""

    device: int
    task: Drive | Sense
    is_undo: bool = False


Choice = Why | GoesOut | list[Entry]  # of a run's step


@dataclass(frozen=True)
class Stranger:
    kept: Slip | None
    told: Slip


class Record:
    """What is left of a window that is closed."""

    def __init__(self, hub: Hub) -> None:
        self.entries, self.order = hub.history.entries, hub.history.line
        self.ends, self.answers = hub.history.ends, hub.history.answers
        self.first = hub.history.first
        self.last = [Stand(hub.standing_value(d), up) for d, up in enumerate(hub.history.up)]
        self.turns = [device.turns - before for device, (before, _) in zip(hub.devices, hub.counts)]
        self.faults = [
            device.faults - before for device, (_, before) in zip(hub.devices, hub.counts)
        ]


class Hub:
    def __init__(
        self,
        runs: dict[int, Run],
        mode: Mode,
        kinds: list[Kind],
        devices: list[Device],
        first: list[Stand],
        rounds: int,
    ) -> None:
        self.runs, self.mode, self.kinds, self.devices = runs, mode, kinds, devices
        self.history = History(runs, mode, first, kinds)
        self.is_weak, self.is_strict = mode.model == "wv", mode.model in ("gsv", "psv")
        self.counts = [(device.turns, device.faults) for device in devices]
        self.probes_left = [rounds] * len(devices)
        self.out: dict[int, Grip] = {}  # of a device
        self.held: dict[int, int] = {}  # of a run the device of its grip
        self.moment = self.ticket = 0

    # Accesses, holding and standing values.

    def has_grip(self, run: int, device: int, is_undo: bool) -> bool:
        return self.held.get(run) == device and self.out[device].is_undo == is_undo

    def has_touched(self, run: int, device: int) -> bool:
        return device in self.history.sees_up[run] or self.has_grip(run, device, False)

    def is_undone(self, run: int, device: int) -> bool:
        return device in self.history.undone[run] or self.has_grip(run, device, True)

    def effective_writer(self, device: int, without: int | None = None) -> int | None:
        """The last run along the line with a write there that is not undone."""
        for item in reversed(self.history.line):
            if isinstance(item, Ran) and item.run != without:
                if device in self.history.wrote[item.run] and not self.is_undone(item.run, device):
                    return item.run
        return None

    def standing_value(self, device: int, without: int | None = None) -> int:
        if self.is_weak:
            return self.history.last_write[device]
        writer = self.effective_writer(device, without)
        return (
            self.history.first[device].value
            if writer is None
            else self.history.wrote[writer][device]
        )

    def holds(self, run: int, device: int) -> bool:
        if run in self.history.dooms:
            return self.history.is_live(run) and self.effective_writer(device) == run
        return self.history.is_open(run, device)

    # Places.

    def binds(self, run: int, item: Item) -> bool:
        """Whether the item keeps a run that is to be placed behind itself."""
        if isinstance(item, Ran):
            followed = self.runs[run].follows == item.run and self.history.is_committed(item.run)
            return followed or any(
                self.has_touched(item.run, device) for device in self.runs[run].footprint
            )
        return item.device in self.runs[run].footprint

    def first_place(self, run: int) -> int:
        """Right behind the floor: the last item that binds, or stands before the first live run."""
        line = self.history.line
        lives = [
            place
            for place, item in enumerate(line)
            if isinstance(item, Ran) and self.history.is_live(item.run)
        ]
        place = len(line)
        while place > min(lives, default=len(line)) and not self.binds(run, line[place - 1]):
            place -= 1
        return place

    def denial(self, run: int, first: int) -> Denied | None:
        """The device that just-in-time admission denies the run, and for whom; none where it denies
        none.
        """
        for device in self.runs[run].footprint:
            for item in self.history.line[:first]:
                if isinstance(item, Ran) and self.holds(item.run, device):
                    return Denied(device, item.run)
            if device in self.runs[run].reads_first:
                writer = self.effective_writer(device)
                if writer is not None and self.history.is_live(writer):
                    return Denied(device, writer)
        return None

    def scheduled_place(self, run: int, moment: int) -> Denied | int:
        """The place that the scheduler gives the run, or why it is denied."""
        end = len(self.history.line)
        if self.mode.scheduler == "fcfs":
            return end
        if self.mode.scheduler == "timeline":
            return len(Gap(self.history, run, moment).before)
        first = self.first_place(run)
        denied = self.denial(run, first)
        if denied is None:
            return first
        return denied if moment - self.history.arrived[run] < PATIENCE else end

    # Leases.

    def deadline(self, run: int, device: int) -> int:
        estimate = self.runs[run].estimate(device)
        return min(self.history.plans[run][device][1] + -(-estimate // 10), MOST)

    def overdue(self, run: int, device: int, moment: int) -> int | None:
        """The first run before this one that was placed later and still holds the device past its
        deadline.
        """
        placed = self.history.placed
        for x in self.history.live_before(run):
            if placed[x] > placed[run] and x not in self.history.dooms and self.holds(x, device):
                if moment > self.deadline(x, device):
                    return x
        return None

    # The step of a run.

    def decide(self, run: int, moment: int) -> Choice:
        """What the run does: nothing (none), a wait, going out, or a list of entries. The first
        case that applies.
        """
        history = self.history
        if run in history.ends:
            return []
        if run in self.held:
            return Busy(self.held[run])
        if run not in history.arrived:
            return [Arrived(run, moment)]
        if run not in history.placed:
            leader = self.runs[run].follows
            if leader is not None and leader not in history.ends:
                return Follow(leader)
            place = self.scheduled_place(run, moment)
            return place if isinstance(place, Denied) else [Placed(run, place, moment)]
        if run in history.dooms:
            return self.decide_doomed(run)
        command = history.next_command(run)
        return (
            self.decide_answered(run)
            if command is None
            else self.decide_command(run, command, moment)
        )

    def decide_doomed(self, run: int) -> Choice:
        """Its effective writes are undone, device by device; then it ends."""
        for device in [] if self.is_weak else self.runs[run].footprint:
            if self.effective_writer(device) == run:
                if device in self.out:
                    return Busy(device)
                if not self.history.up[device]:
                    return [Undid(run, device, False)]
                return GoesOut(
                    device, Drive(self.standing_value(device, without=run)), is_undo=True
                )
        return [Ended(run, self.history.dooms[run])]

    def decide_answered(self, run: int) -> list[Entry]:
        """It commits; under a strict model only where the devices that it has touched are up."""
        for device in self.runs[run].footprint if self.is_strict else []:
            if self.has_touched(run, device) and not self.history.up[device]:
                return [Doomed(run, DownAtEnd(device))]
        return [Ended(run, None)]

    def decide_command(self, run: int, command: Command, moment: int) -> Choice:
        history, device = self.history, command.device
        if not command.is_done(history.registers[run]):
            skip: Choice = [Did(run, len(history.answers[run]), SKIPPED)]
            return self.strict_wait(run) or skip
        sees_down = not self.is_weak and not history.sees_up[run].get(device, True)
        if not self.is_weak:
            borrower = self.overdue(run, device, moment)
            if borrower is not None:
                return [
                    Doomed(borrower, Revoked(run, device, self.deadline(borrower, device), moment))
                ]
            wait = self.wait_in_line(run, command, sees_down)
            if wait is not None:
                return wait
        if device in self.out and not sees_down:
            return Busy(device)
        if sees_down or not history.up[device]:
            c = len(history.answers[run])
            return [Did(run, c, DOWN), *([Doomed(run, MustDown(c))] if command.must else [])]
        return GoesOut(
            device,
            Sense()
            if command.reads
            else Drive(command.driven(self.kinds[device], history.registers[run])),
        )

    def wait_in_line(self, run: int, command: Command, sees_down: bool) -> Why | None:
        """For which run before it in the line it waits at this command."""
        before, device = self.history.live_before(run), command.device
        for x in before:
            if self.holds(x, device):
                return Behind(device, x)
        if command.reads and not sees_down and device not in self.history.wrote[run]:
            writer = self.effective_writer(device)
            if writer in before:
                return Dirty(device, writer)
        return self.strict_wait(run)

    def strict_wait(self, run: int) -> Strict | None:
        """The first run before it in the line that a strict model lets end first."""
        for x in self.history.live_before(run) if self.is_strict else []:
            if self.mode.model == "gsv" or self.runs[x].shares(self.runs[run]):
                return Strict(x)
        return None

    # The calls. Each gives what it made: a list of entries.

    def make(self, entries: list[Entry]) -> list[Entry]:
        for entry in entries:
            self.history.add(entry)
        return entries

    def hand_out(self, d: int, maker: int, task: Task, is_undo: bool = False) -> Grip:
        self.ticket += 1
        device = self.devices[d]
        slip = Slip(
            self.ticket,
            d,
            maker,
            device.stands,
            device.turns,
            device.drives,
            device.probes,
            device.faults,
        )
        self.out[d] = Grip(device, slip, task, is_undo)
        return self.out[d]

    def take(self, run: int, moment: int) -> Why | Grip | list[Entry]:
        """The next step of a run of the window: a wait, a grip that goes out, or the entries
        made.
        """
        self.moment = max(self.moment, moment)
        choice = self.decide(run, self.moment)
        if isinstance(choice, GoesOut):
            self.held[run] = choice.device
            return self.hand_out(choice.device, run, choice.task, choice.is_undo)
        return self.make(choice) if isinstance(choice, list) else choice

    def stranger(self, grip: Grip, of_detector: bool) -> Stranger | None:
        kept = self.out.get(grip.slip.device)
        if (
            kept is not None
            and (kept.slip, kept.task) == (grip.slip, grip.task)
            and of_detector == (grip.slip.maker == 0)
        ):
            return None
        return Stranger(kept.slip if kept else None, grip.slip)

    def give(self, grip: Grip, moment: int) -> Stranger | list[Entry]:
        """A run's grip comes back."""
        stranger = self.stranger(grip, False)
        if stranger is not None:
            return stranger
        self.moment = max(self.moment, moment)
        run, device = grip.slip.maker, grip.slip.device
        entries = (
            self.undo_entries(run, device, grip)
            if grip.is_undo
            else self.command_entries(run, device, grip)
        )
        del self.out[device], self.held[run]
        return self.make(entries)

    def undo_entries(self, run: int, device: int, grip: Grip) -> list[Entry]:
        return (
            [Undid(run, device, True)] if grip.worked else [Fell(device), Undid(run, device, False)]
        )

    def command_entries(self, run: int, device: int, grip: Grip) -> list[Entry]:
        c = len(self.history.answers[run])
        command = self.runs[run].commands[c]
        cause: Cause | None = None
        entries: list[Entry]
        if grip.worked:
            answer: Answer = FINE if grip.found is None else grip.found
            entries = [Did(run, c, answer)]
            if isinstance(answer, int) and command.fails(answer):
                cause = Refuted(c, answer)
        else:
            entries = [Fell(device), Did(run, c, DOWN)]
            if device in self.history.sees_up[run] and not self.is_weak:
                cause = Lost(device)
            elif command.must:
                cause = MustDown(c)
        if cause is not None and run not in self.history.dooms:
            entries.append(Doomed(run, cause))
        return entries

    def take_probe(self, d: int) -> Grip | None:
        """The detector's grip of a device that is home; none where it is not, or where no probe is
        left.
        """
        if d in self.out or self.probes_left[d] == 0:
            return None
        self.probes_left[d] -= 1
        return self.hand_out(d, 0, Probe(None if self.history.up[d] else self.standing_value(d)))

    def give_probe(self, grip: Grip) -> Stranger | list[Entry]:
        stranger = self.stranger(grip, True)
        if stranger is not None:
            return stranger
        device, entries = grip.slip.device, list[Entry]()
        if not self.history.up[device]:
            entries = [Rose(device)] if grip.worked else []
        elif not grip.worked:
            entries = [Fell(device), *(Doomed(run, Lost(device)) for run in self.lost_by(device))]
        del self.out[device]
        return self.make(entries)

    def lost_by(self, device: int) -> list[int]:
        """The run that a failure of the device loses: it sees the device up, and is not done
        there.
        """
        history = self.history
        return (
            []
            if self.is_weak
            else [
                run
                for run in self.runs
                if history.is_open(run, device) and history.sees_up[run].get(device, False)
            ]
        )

    def not_quiet(self) -> StillLive | StillOut | None:
        """Why the window cannot be closed, or none."""
        for run in self.runs:
            if run not in self.history.ends:
                return StillLive(run)
        return StillOut(min(self.out)) if self.out else None
