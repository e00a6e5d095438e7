"""The calls of a log as values and as bytes, laid out as docs/CALL-LOG.md says.

Kinds from 128 on are a file's own. They are no calls of the home, and stand in records of the same
size.
"""
import re
import struct
from enum import IntEnum
from typing import Iterable, NamedTuple

from lazbendix._calls import call_bytes
from lazbendix.hubs import Hub
from lazbendix.told import Answer, Dead, Entry, Found, Go, Moved, NoRun, Over, Turn, Waits, Worked

LAYOUT = struct.Struct("<BBHIQQ")
ENTRY = struct.Struct("<12Q")
OWN = 128
WORKED, FOUND, DEAD = 1, 2, 3
PLAIN = re.compile(r"\d{4}-\d\d-\d\dT\d\d:\d\d:[0-5]\d", re.ASCII)
ANY_HOME = '{"safehome": 1, "devices": [], "routines": [], "windows": []}'


class CallKind(IntEnum):
    """What a record says."""

    BEGIN_WINDOW = 1
    ADD_RUN = 2
    WINDOW = 3
    TAKE = 4
    GIVE = 5
    PROBE = 6
    CLOSE_WINDOW = 7
    RESTAND = 8
    LOSE = 9
    STARTED = OWN  # a process opened the log
    TRIGGERED = OWN + 1  # the trigger `first` asks for the routine `value`
    RUN_OF = OWN + 2  # the run that is added next is that of the trigger `first`
    SYNCED = OWN + 3  # the first `first` records were synced when this one was written
    REPORTED = OWN + 4  # the first `first` reports were handed out, and what became of them is over
    ANEW = OWN + 5  # after `first` tickets, `value` triggers, and a window at the time `second`
    COUNTED = OWN + 6  # after `first` reports


class LoggedCall(NamedTuple):
    """The six numbers of a record."""

    kind: int
    sort: int = 0
    device: int = 0
    value: int = 0
    first: int = 0
    second: int = 0

    def to_bytes(self) -> bytes:
        """The library makes the bytes of a home's call. Raises `ValueError` where no call has these
        numbers."""
        try:
            made = LAYOUT.pack(*self) if self.kind >= OWN else call_bytes(*self)
        except struct.error as error:
            raise ValueError(f"{self}: {error}") from error
        if made is None:
            raise ValueError(f"{self} is no call")
        return made


def began(at: str, probes: int) -> LoggedCall:
    return LoggedCall(CallKind.BEGIN_WINDOW, value=probes, first=time_number(plain_time(at)))


def added(routine: int, follows: int) -> LoggedCall:
    return LoggedCall(CallKind.ADD_RUN, 1 if follows else 0, value=routine, first=follows)


def gave(device: int, ticket: int, answer: Answer, moment: int) -> LoggedCall:
    match answer:
        case Worked():
            sort, value = WORKED, 0
        case Found(value):
            sort = FOUND
        case Dead():
            sort, value = DEAD, 0
    return LoggedCall(CallKind.GIVE, sort, device, value, ticket, moment)


def answer_of(call: LoggedCall) -> Answer:
    """The answer of a GIVE."""
    return Worked() if call.sort == WORKED else Found(call.value) if call.sort == FOUND else Dead()


def plain_time(at: str) -> str:
    """The time as a record has it. A script may have other forms, which the library reads. Raises
    `Refused` with BAD_TIME."""
    if PLAIN.fullmatch(at):
        return at
    with Hub(ANY_HOME) as hub:
        hub.window(hub.begin_window(at))
        hub.close_window()
        return hub.record().split()[2]


def time_number(at: str) -> int:
    """The number of a plain time's digits: 20261201090500 for `2026-12-01T09:05:00`."""
    return int("".join(filter(str.isdigit, at)))


def time_text(number: int) -> str:
    """The time with these digits."""
    digits = f"{number:014}"
    year, rest = digits[:-10], digits[-10:]
    month, day, hour, minute, second = (rest[at : at + 2] for at in range(0, 10, 2))
    return f"{year}-{month}-{day}T{hour}:{minute}:{second}"


# What a call answered, as bytes to take a checksum of.


def entry_bytes(entry: Entry) -> bytes:
    numbers = entry.kind, entry.run, entry.command, entry.device, entry.place, entry.answer
    more = entry.value, entry.drove, entry.cause, entry.lender, entry.moment, entry.deadline
    return ENTRY.pack(*numbers, *more)


def entries_bytes(made: Iterable[Entry]) -> bytes:
    return b"".join(map(entry_bytes, made))


def number_bytes(*numbers: int) -> bytes:
    return struct.pack(f"<{len(numbers)}Q", *numbers)


def turn_bytes(turn: Turn) -> bytes:
    match turn:
        case Moved(made):
            return entries_bytes(made)
        case Go():
            return number_bytes(
                turn.device, turn.ticket, turn.run, turn.task, turn.value, turn.stood
            )
        case Over(end, made):
            return entries_bytes((end, *made))
        case Waits() | NoRun():
            return b""
