"""Plays a day as `replay` does, through the package, on devices that stand here."""
import random
from dataclasses import dataclass, field
from typing import Any

from lazbendix import Answer, Dead, Entry, EntryKind, Found, Go, Hub, Model, Moved, Over, Scheduler, Task, Waits, Worked
from reference.record import time_text

DETECTOR = 0


class Draws:
    """The generator of picks."""

    def __init__(self, state: int) -> None:
        self.state = state

    def below(self, bound: int) -> int:
        self.state = (self.state * 6364136223846793005 + 1442695040888963407) % 2**64
        return (self.state >> 33) % bound


@dataclass
class Device:
    """Does not answer its calls from a number on and before another one, for each such pair of `downs`."""

    stands: int
    downs: list[tuple[int, int]]
    calls: int = 0

    def answers(self) -> bool:
        self.calls += 1
        return not any(first <= self.calls < end for first, end in self.downs)

    def call(self, go: Go) -> Answer:
        if not self.answers() or (go.task is Task.RESTORE and not self.answers()):
            return Dead()
        if go.task in (Task.DRIVE, Task.RESTORE):
            self.stands = go.value
        return Found(self.stands) if go.task is Task.SENSE else Worked()


@dataclass
class Player:
    """Steps the actors of a window. `script` is one of the reference's readings, and `wall` the devices."""

    hub: Hub
    script: Any
    window: Any
    wall: list[Device]
    moment: int = 0
    probed: int = 0
    out: dict[int, tuple[Go, bool]] = field(default_factory=dict)  # by actor, and whether it is an undo
    ended: set[int] = field(default_factory=set)
    doomed: set[int] = field(default_factory=set)
    did: dict[int, int] = field(default_factory=dict)
    told: list[Entry] = field(default_factory=list)
    joins: random.Random | None = None  # draws when runs join, where they do
    come: int = 0  # the runs that the window has

    def join(self) -> None:
        run = self.window.runs[self.come]
        self.come += 1
        assert self.hub.add_run(run.routine, run.follows or 0) == self.come

    def let_join(self, actor: int) -> None:
        """Before a step of the actor it has joined, and perhaps others have."""
        while self.joins and (self.come < actor or (self.come < len(self.window.runs) and self.joins.random() < 0.1)):
            self.join()

    def open(self, number: int) -> None:
        """Opens the window of this number: the script's, or one of the moment, with some of its runs."""
        if self.joins:
            assert self.hub.begin_window(time_text(self.window.at), self.window.probes) == number
            for _ in range(self.joins.randint(0, min(2, len(self.window.runs)))):
                self.join()
        self.hub.window(number)

    def note(self, made: tuple[Entry, ...]) -> None:
        self.told += made
        for entry in made:
            if entry.kind is EntryKind.DID:
                self.did[entry.run] = entry.command + 1
            elif entry.kind is EntryKind.DOOMED:
                self.doomed.add(entry.run)
            elif entry.kind in (EntryKind.COMMITTED, EntryKind.ABORTED):
                self.ended.add(entry.run)

    def has_ended(self, actor: int) -> bool:
        if actor == DETECTOR:
            return self.probed == self.window.probes * len(self.wall) and DETECTOR not in self.out
        return actor in self.ended

    def pick(self, actor: int) -> bool:
        """The actor's next step; whether it does not wait."""
        self.let_join(actor)
        if self.has_ended(actor):
            return True
        if actor in self.out:
            self.give(actor, *self.out.pop(actor))
            return True
        if actor == DETECTOR:
            self.probe()
            return True
        turn = self.hub.take(actor, self.moment)
        if isinstance(turn, Go):
            self.out[actor] = turn, actor in self.doomed
        elif isinstance(turn, (Moved, Over)):
            self.note(turn.made)
        return not isinstance(turn, Waits)

    def probe(self) -> None:
        device = self.probed % len(self.wall)
        self.probed += 1
        if all(go.device != device for go, _ in self.out.values()):
            self.out[DETECTOR] = self.hub.probe(device), False

    def give(self, actor: int, go: Go, is_undo: bool) -> None:
        if actor != DETECTOR and not is_undo:
            routine = self.script.routines[self.window.runs[actor - 1].routine]
            self.moment += routine.commands[self.did.get(actor, 0)].takes
        self.note(self.hub.give(go.device, go.ticket, self.wall[go.device].call(go), self.moment))

    def finish(self) -> None:
        draws = Draws(self.window.seed)
        while actors := [actor for actor in range(len(self.window.runs) + 1) if not self.has_ended(actor)]:
            first = draws.below(len(actors))
            if not any(self.pick(actor) for actor in actors[first:] + actors[:first]):
                raise AssertionError("every actor waits")


def play(script: Any, data: bytes, model: Model, scheduler: Scheduler, joins: random.Random | None = None) -> str:
    """The record of the day, with its trace; `data` is the script's text, or, where its runs join, that without windows."""
    runs = committed = 0
    with Hub(data, model, scheduler) as hub:
        text = hub.head()
        wall = [Device(hub.stand(d).value, device.downs) for d, device in enumerate(script.devices)]
        for number, window in enumerate(script.windows):
            player = Player(hub, script, window, wall, joins=joins)
            player.open(number)
            for actor in window.turns:
                player.pick(actor)
            player.finish()
            hub.close_window()
            assert player.told == list(hub.entries())
            text += hub.record(trace=True)
            runs += len(window.runs)
            committed += sum(entry.kind is EntryKind.COMMITTED for entry in player.told)
    return f"{text}total windows {len(script.windows)} runs {runs} committed {committed} aborted {runs - committed}\n"
