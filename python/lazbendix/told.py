"""What the calls of a hub tell, and what they take."""
from dataclasses import dataclass
from enum import IntEnum
from typing import Union


class Status(IntEnum):
    """What a call answers."""

    DONE = 0
    CLOSED = 1
    OPEN = 2
    REFUSED = 3
    MODE = 4
    NO_MEMORY = 5
    IN_WINDOW = 6
    NO_WINDOW = 7
    ABSENT = 8
    TOO_MANY = 9
    NOT_OUT = 10
    WRONG = 11
    DIFFERS = 12
    NO_PROBE = 13
    NOT_QUIET = 14
    NO_RECORD = 15
    BAD_TIME = 16
    BAD_FOLLOW = 17
    NO_VALUE = 18
    NO_CALL = 19


class Model(IntEnum):
    """How the runs of a window see each other."""

    EVENTUAL = 0
    PARTITIONED = 1
    GLOBAL = 2
    WEAK = 3


class Scheduler(IntEnum):
    """How a run gets its place; the last two go with the eventual model alone."""

    FCFS = 0
    JIT = 1
    TIMELINE = 2


class Refused(Exception):
    """A call that did nothing, and its status."""

    def __init__(self, status: Status, call: str) -> None:
        super().__init__(f"{call}: {status.name}")
        self.status, self.call = status, call


class CallRefused(Refused):
    """A home that was not opened again: it refuses the call of the log behind so many bytes."""

    def __init__(self, good: int) -> None:
        super().__init__(Status.NO_CALL, "reopen")
        self.good = good


class FaultKind(IntEnum):
    NOT_JSON = 2
    SHAPE = 3
    UNKNOWN_NAME = 4
    DOUBLE_NAME = 5
    BAD_NAME = 6
    BAD_STATE = 7
    BAD_TIME = 8
    TOO_MANY = 9
    BAD_FOLLOW = 10
    BAD_VERSION = 11
    BAD_TURN = 12


class Part(IntEnum):
    NONE = 0
    TOP = 1
    DEVICE = 2
    DOWN = 3
    ROUTINE = 4
    COMMAND = 5
    WINDOW = 6
    TURN = 7
    RUN = 8


@dataclass(frozen=True)
class Fault:
    """Why a script is refused, and where: the numbers of its part count from 1."""

    kind: FaultKind
    part: Part
    outer: int
    inner: int
    count: int
    limit: int


class ScriptRefused(Refused):
    """The script is refused."""

    def __init__(self, fault: Fault) -> None:
        super().__init__(Status.REFUSED, "open")
        self.fault = fault
        self.args = (f"{fault.kind.name} at {fault.part.name} {fault.outer}.{fault.inner}",)


class EntryKind(IntEnum):
    NONE = 0
    ARRIVED = 1
    PLACED = 2
    DID = 3
    UNDID = 4
    FELL = 5
    ROSE = 6
    DOOMED = 7
    COMMITTED = 8
    ABORTED = 9


class Given(IntEnum):
    """How a command was answered."""

    NONE = 0
    FINE = 1
    FOUND = 2
    DOWN = 3
    SKIPPED = 4


class Cause(IntEnum):
    """Why a run is aborted."""

    NONE = 0
    MUST_DOWN = 1
    REFUTED = 2
    LOST = 3
    REVOKED = 4
    DOWN_AT_END = 5


@dataclass(frozen=True)
class Entry:
    """An entry of a window's history. A number of which its kind does not speak is 0; commands,
    devices and places count from 0, runs from 1, and moments are ms from the window's beginning."""

    kind: EntryKind
    run: int
    command: int
    device: int
    place: int
    answer: Given
    value: int
    drove: bool
    cause: Cause
    lender: int
    moment: int
    deadline: int


class Why(IntEnum):
    """For what a run waits. DENIED and BEHIND may end by time alone."""

    FOLLOWS = 1
    DENIED = 2
    BEHIND = 3
    DIRTY = 4
    STRICT = 5
    BUSY = 6


class Task(IntEnum):
    """What a device is to do: be driven to a value, be sensed, be probed, or be probed and then
    driven.
    """

    DRIVE = 1
    SENSE = 2
    PROBE = 3
    RESTORE = 4


@dataclass(frozen=True)
class Moved:
    """The run made entries."""

    made: tuple[Entry, ...]


@dataclass(frozen=True)
class Waits:
    """The run waits, for this device or this run."""

    why: Why
    device: int
    run: int


@dataclass(frozen=True)
class Go:
    """A device is out: make its call, and give the answer with the ticket, which no other call of
    the hub has, in whatever window. `run` is 0 for a probe; `stood` is the value at which the
    device stands for the hub."""

    device: int
    ticket: int
    run: int
    task: Task
    value: int
    stood: int


@dataclass(frozen=True)
class Over:
    """The run has ended: with entries where it ended in this step."""

    end: Entry
    made: tuple[Entry, ...]


@dataclass(frozen=True)
class NoRun:
    """The window has no such run."""


Turn = Union[Moved, Waits, Go, Over, NoRun]


@dataclass(frozen=True)
class Worked:
    """The device did what it was to do."""


@dataclass(frozen=True)
class Found:
    """The device was sensed, and stands at this value."""

    value: int


@dataclass(frozen=True)
class Dead:
    """The device did not answer, or not in time."""


Answer = Union[Worked, Found, Dead]


@dataclass(frozen=True)
class Left:
    """What is left to do in a window: the smallest run that has not ended, or else the smallest
    device that is out.
    """

    run: int | None
    device: int | None


class ItemKind(IntEnum):
    RAN = 1
    FAILED = 2
    BACK = 3


@dataclass(frozen=True)
class Item:
    """An item of a window's order: a run, done whole, or the failure or restart of this number of a
    device in the window, from 1. A number that its kind does not speak of is 0."""

    kind: ItemKind
    run: int
    device: int
    number: int


@dataclass(frozen=True)
class Stand:
    """Where a device stands between two windows, and whether it is up."""

    value: int
    up: bool


@dataclass(frozen=True)
class Counts:
    """How many devices, routines and windows a script has, with the windows that were begun."""

    devices: int
    routines: int
    windows: int
