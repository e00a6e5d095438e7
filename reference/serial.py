"""Commands, routines, and the serial execution of a list of items. Nothing here knows of a hub.

The home state is a list with a `Stand` for each device. Values are whole numbers; those of a device
with named states are the places of the names. A routine is a list of commands, and `runs` a dict
from the number of a run to the `Run`.
"""
from __future__ import annotations

from dataclasses import dataclass
from functools import cached_property
from typing import NamedTuple

# the answers; a read that worked is answered with the value that it found
FINE, DOWN, SKIPPED = ".", "-", "/"
Answer = str | int


class Kind(NamedTuple):
    """What values a device has."""

    low: int
    high: int

    def has_value(self, value: int) -> bool:
        return self.low <= value <= self.high

    def nearest(self, number: int) -> int:
        return min(max(number, self.low), self.high)


class Stand(NamedTuple):
    """Where a device stands, and whether it is up."""

    value: int
    up: bool


class Guard(NamedTuple):
    """With which registers a command is done. With each other one it is skipped."""

    word: str  # is or below
    value: int

    def holds(self, register: int) -> bool:
        return register == self.value if self.word == "is" else register < self.value


class Command(NamedTuple):
    device: int
    job: str  # set, check, load or store
    value: int | None  # of a set and a check
    must: bool = True
    ms: int = 100  # how long it takes, as is estimated
    takes: int = 100  # how long it takes, in a replay
    when: Guard | None = None

    def is_done(self, register: int) -> bool:
        """Whether its guard holds."""
        return self.when is None or self.when.holds(register)

    @property
    def reads(self) -> bool:
        return self.job in ("check", "load")

    @property
    def writes(self) -> bool:
        return not self.reads

    def driven(self, kind: Kind, register: int) -> int:
        """The value to which a write drives its device."""
        if self.job != "set":
            return kind.nearest(register)
        assert self.value is not None  # as the reading of a script has it
        return self.value

    def register_after(self, register: int, answer: str | int) -> int:
        return answer if self.job == "load" and isinstance(answer, int) else register

    def refutes(self, answer: str | int) -> bool:
        return self.job == "check" and answer not in (DOWN, SKIPPED, self.value)

    def fails(self, answer: str | int) -> bool:
        """Whether it is a must command that has failed with this answer."""
        return self.must and (answer == DOWN or self.refutes(answer))


@dataclass(frozen=True)
class Run:
    """One execution of a routine, which may follow that of an earlier run."""

    commands: list[Command]
    follows: int | None = None

    @cached_property
    def footprint(self) -> list[int]:
        """The devices of its commands, ascending."""
        return sorted(self.last)

    @cached_property
    def last(self) -> dict[int, int]:
        """The number of its last command on each device."""
        return {command.device: c for c, command in enumerate(self.commands)}

    @cached_property
    def reads_first(self) -> set[int]:
        """The devices on which a command reads, and none before it writes whatever the register
        is.
        """
        reading, written = set(), set()
        for command in self.commands:
            if command.reads and command.device not in written:
                reading.add(command.device)
            elif command.writes and command.when is None:
                written.add(command.device)
        return reading

    @cached_property
    def writes(self) -> set[int]:
        return {command.device for command in self.commands if command.writes}

    def estimate(self, device: int) -> int:
        """The sum of its estimates up to its last command on the device."""
        return sum(command.ms for command in self.commands[: self.last[device] + 1])

    def shares(self, other: Run) -> bool:
        return not self.last.keys().isdisjoint(other.last)


@dataclass(frozen=True)
class Ran:
    run: int


@dataclass(frozen=True)
class Failed:
    device: int
    count: int  # failures and restarts of a device are counted from 1, each for itself


@dataclass(frozen=True)
class Back:
    device: int
    count: int


Item = Ran | Failed | Back


class Refused(Exception):
    """The items cannot be executed one after another."""


def execute(
    home: list[Stand], kinds: list[Kind], command: Command, register: int
) -> tuple[str | int, int]:
    """Executes a command on the home, which it changes. Gives the answer and the register after
    it.
    """
    if not command.is_done(register):
        return SKIPPED, register
    value, up = home[command.device]
    if not up:
        return DOWN, register
    if command.writes:
        driven = command.driven(kinds[command.device], register)
        home[command.device] = Stand(driven, True)
        return FINE, register
    return value, command.register_after(register, value)


def execute_routine(
    home: list[Stand], kinds: list[Kind], commands: list[Command]
) -> list[str | int]:
    """The answers of a routine that is executed alone. Refused where a must command fails."""
    register, answers = 0, []
    for command in commands:
        answer, register = execute(home, kinds, command, register)
        if command.fails(answer):
            raise Refused
        answers.append(answer)
    return answers


def execute_serially(
    home: list[Stand], kinds: list[Kind], runs: dict[int, Run], items: list[Item]
) -> tuple[list[Stand], dict[int, list[int | str]]]:
    """Executes the items one after another: the home after them, and the answers of each run among
    them.

    Refused where a routine is, where a device fails that is down, or where one comes back that is
    up.
    """
    home, answers = list(home), {}
    for item in items:
        if isinstance(item, Ran):
            answers[item.run] = execute_routine(home, kinds, runs[item.run].commands)
        else:
            value, up = home[item.device]
            if up != isinstance(item, Failed):
                raise Refused
            home[item.device] = Stand(value, not up)
    return home, answers
