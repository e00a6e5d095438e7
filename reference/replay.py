"""A replay: the generator of picks, the actors of a window, and the home from window to window."""
from __future__ import annotations

from .devices import Device, Grip
from .history import Entry, Mode
from .hub import WAITS, Hub, Record, Stranger, Why
from .script import Script, WindowText
from .serial import Run, Stand

DETECTOR = 0


class Draws:
    """The generator of picks."""

    def __init__(self, state: int) -> None:
        self.state = state

    def below(self, bound: int) -> int:
        self.state = (self.state * 6364136223846793005 + 1442695040888963407) % 2**64
        return (self.state >> 33) % bound


class Player:
    """Steps the actors of a window, its runs and the detector, one pick after another."""

    def __init__(self, hub: Hub, rounds: int) -> None:
        self.hub, self.moment = hub, 0
        self.grips: dict[int, Grip] = {}  # of an actor
        self.to_probe = [device for _ in range(rounds) for device in range(len(hub.devices))]

    def has_ended(self, actor: int) -> bool:
        if actor == DETECTOR:
            return not self.to_probe and DETECTOR not in self.grips
        return actor in self.hub.history.ends

    def pick(self, actor: int) -> Stranger | list[Entry] | int | Why | None:
        """What the actor does: none where it passes, the number of a device with which it goes out,
        a wait, or entries.
        """
        if self.has_ended(actor):
            return None
        if actor in self.grips:
            return self.give(actor, self.grips.pop(actor))
        if actor == DETECTOR:
            device = self.to_probe.pop(0)
            taken = self.hub.take_probe(device)
            if taken is None:
                return None
        else:
            step = self.hub.take(actor, self.moment)
            if not isinstance(step, Grip):
                return step
            taken = step
        self.grips[actor] = taken
        return taken.slip.device

    def give(self, actor: int, grip: Grip) -> Stranger | list[Entry]:
        """The actor acts on its device and gives it back; a command's time passes first."""
        if actor == DETECTOR:
            return self.hub.give_probe(grip.act())
        if not grip.is_undo:
            commands, done = self.hub.runs[actor].commands, len(self.hub.history.answers[actor])
            self.moment += commands[done].takes
        return self.hub.give(grip.act(), self.moment)

    def finish(self, seed: int) -> None:
        """Picks by the generator until every actor has ended: one is drawn, and from it on the
        first that does not wait.
        """
        draws = Draws(seed)
        while actors := [
            actor for actor in (DETECTOR, *self.hub.runs) if not self.has_ended(actor)
        ]:
            first = draws.below(len(actors))
            for actor in actors[first:] + actors[:first]:
                if not isinstance(self.pick(actor), WAITS):
                    break
            else:
                raise AssertionError("every actor waits")


class Home:
    """The devices of a script, and where they stand between two windows."""

    def __init__(self, script: Script) -> None:
        self.script = script
        self.devices = [Device(device.start, device.downs) for device in script.devices]
        self.stands = [Stand(device.start, True) for device in script.devices]

    def resume(self, stands: list[Stand]) -> None:
        """Goes on where another program left off: each device that was up is driven there, or else
        counted down.
        """
        self.stands = [
            Stand(value, up and device.drive(value))
            for device, (value, up) in zip(self.devices, stands)
        ]

    def open_window(self, window: WindowText, mode: Mode) -> Hub:
        runs = {
            r: Run(self.script.routines[run.routine].commands, run.follows)
            for r, run in enumerate(window.runs, 1)
        }
        kinds = [device.kind for device in self.script.devices]
        return Hub(runs, mode, kinds, self.devices, self.stands, window.probes)

    def close_window(self, hub: Hub) -> Record:
        record = Record(hub)
        self.stands = record.last
        return record

    def replay(self, window: WindowText, mode: Mode) -> Record:
        player = Player(self.open_window(window, mode), window.probes)
        for actor in window.turns:
            player.pick(actor)
        player.finish(window.seed)
        return self.close_window(player.hub)
