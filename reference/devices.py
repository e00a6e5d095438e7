"""Simulated devices, and the grip with which a run or the detector calls one."""
from __future__ import annotations

from collections.abc import Sequence
from dataclasses import dataclass, field


class Device:
    """Does not answer its calls from a number on and before another one, for each such pair of
    `downs`.
    """

    def __init__(self, start: int, downs: Sequence[tuple[int, int]] = ()) -> None:
        self.stands, self.downs = start, downs
        self.turns = self.drives = self.probes = self.faults = self.calls = 0

    def answers(self) -> bool:
        self.calls += 1
        dead = any(first <= self.calls < end for first, end in self.downs)
        self.faults += dead
        return not dead

    def drive(self, value: int) -> bool:
        if not self.answers():
            return False
        self.stands = value
        self.turns += 1
        self.drives += 1
        return True

    def sense(self) -> int | None:
        """The value at which it stands, or none."""
        if not self.answers():
            return None
        self.turns += 1
        return self.stands

    def probe(self) -> bool:
        self.probes += 1
        return self.answers()


@dataclass(frozen=True)
class Slip:
    """What a hub notes of a device that goes out: with the ticket, it is of one grip alone."""

    ticket: int
    device: int
    maker: int  # the number of a run, or 0 for the detector
    stood: int
    turns: int
    drives: int  # how many of the turns
    probes: int
    faults: int


@dataclass(frozen=True)
class Drive:
    value: int


@dataclass(frozen=True)
class Sense:
    pass


@dataclass(frozen=True)
class Probe:
    restores: int | None  # what a device that is counted down is driven to when it answers


Task = Drive | Sense | Probe


@dataclass
class Grip:
    device: Device
    slip: Slip
    task: Task
    is_undo: bool = False
    worked: bool | None = field(default=None, init=False)
    found: int | None = field(default=None, init=False)

    def act(self) -> Grip:
        """Makes the one call, and behind a probe that brings a device back the drive that restores
        it.
        """
        match self.task:
            case Drive(value):
                self.worked = self.device.drive(value)
            case Sense():
                self.found = self.device.sense()
                self.worked = self.found is not None
            case Probe(restores):
                self.worked = self.device.probe() and (
                    restores is None or self.device.drive(restores)
                )
        return self
