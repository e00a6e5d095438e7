"""The rooms of a home: which it has, what each has of the script, and the windows of the rooms as
one window of the home.

The room of a device is the part of its name before the first `_`. Rooms are in the order of their
first devices.
"""
from __future__ import annotations

import dataclasses
from collections.abc import Iterator

from .history import Cause, DownAtEnd, Entry, Lost, Mode, Revoked
from .hub import Record
from .replay import Home
from .script import DeviceText, RoutineText, RunText, Script, WindowText
from .serial import Command, Item, Ran


class Cross(Exception):
    """A run has commands in two rooms, or follows one of another room. Its window and its number,
    both from 1.
    """

    def __init__(self, window: int, run: int, follow: bool) -> None:
        super().__init__(f"cross {'follow' if follow else 'room'} {window}.{run}")


def room_of(device: DeviceText) -> str:
    return device.name.partition("_")[0]


def rooms_of(script: Script) -> list[str]:
    """The names of the rooms."""
    return list(dict.fromkeys(map(room_of, script.devices)))


def rooms_of_run(script: Script, run: RunText) -> set[str]:
    """The rooms in which the run has commands."""
    return {
        room_of(script.devices[command.device]) for command in script.routines[run.routine].commands
    }


def need_no_crossing(script: Script) -> None:
    """Refuses the first window that has such a run, with the least one."""
    for number, window in enumerate(script.windows, 1):
        rooms = [rooms_of_run(script, run) for run in window.runs]
        for r, run in enumerate(window.runs, 1):
            if len(rooms[r - 1]) > 1:
                raise Cross(number, r, False)
            if run.follows is not None and rooms[run.follows - 1] != rooms[r - 1]:
                raise Cross(number, r, True)


class Room:
    """What a room has of a script, as a script with numbers of its own."""

    def __init__(self, script: Script, name: str) -> None:
        self.devices = [d for d, device in enumerate(script.devices) if room_of(device) == name]
        self.runs = [
            [r for r, run in enumerate(window.runs, 1) if rooms_of_run(script, run) == {name}]
            for window in script.windows
        ]
        self.script = Script(
            [script.devices[d] for d in self.devices],
            [RoutineText(routine.name, self.commands(routine)) for routine in script.routines],
            [self.window(window, runs) for window, runs in zip(script.windows, self.runs)],
        )
        self.home = Home(self.script)

    def commands(self, routine: RoutineText) -> list[Command]:
        """The commands of the routine with the room's numbers; those in other rooms are left
        out.
        """
        own = [command for command in routine.commands if command.device in self.devices]
        return [command._replace(device=self.devices.index(command.device)) for command in own]

    def window(self, window: WindowText, runs: list[int]) -> WindowText:
        """The window with the room's runs, and of the turns with theirs."""

        def own(r: int) -> int:
            return runs.index(r) + 1

        own_runs = [window.runs[r - 1] for r in runs]
        return window._replace(
            turns=[own(turn) for turn in window.turns if turn in runs],
            runs=[RunText(run.routine, run.follows and own(run.follows)) for run in own_runs],
        )

    def replay(self, number: int, mode: Mode) -> HomeNumbers:
        """The record of the room's window with this number, from 0, with the numbers of the
        home.
        """
        return HomeNumbers(
            self.devices, self.runs[number], self.home.replay(self.script.windows[number], mode)
        )


class HomeNumbers:
    """The record of a room's window with the numbers of the home."""

    def __init__(self, devices: list[int], runs: list[int], record: Record) -> None:
        self.devices, self.runs = devices, runs
        self.order = list(map(self.item, record.order))
        self.ends = {self.run(run): self.cause(cause) for run, cause in record.ends.items()}
        self.answers = {self.run(run): answers for run, answers in record.answers.items()}
        self.last = dict(zip(devices, record.last))

    def run(self, run: int) -> int:
        return self.runs[run - 1]

    def item(self, item: Item) -> Item:
        if isinstance(item, Ran):
            return Ran(self.run(item.run))
        return dataclasses.replace(item, device=self.devices[item.device])

    def cause(self, cause: Cause | None) -> Cause | None:
        match cause:
            case Revoked(lender, device, _, _):
                return dataclasses.replace(
                    cause, lender=self.run(lender), device=self.devices[device]
                )
            case Lost(device) | DownAtEnd(device):
                return dataclasses.replace(cause, device=self.devices[device])
        return cause


class JoinedRecord:
    """The records of the rooms of one window as that of the home: their orders stand room after
    room.
    """

    def __init__(self, rooms: list[HomeNumbers]) -> None:
        self.entries: list[Entry] = []
        self.order = [item for room in rooms for item in room.order]
        self.ends = {run: cause for room in rooms for run, cause in room.ends.items()}
        self.answers = {run: answers for room in rooms for run, answers in room.answers.items()}
        last = {device: stand for room in rooms for device, stand in room.last.items()}
        self.last = [last[device] for device in sorted(last)]


def joined_records(script: Script, mode: Mode) -> Iterator[JoinedRecord]:
    """The record of each window, played room after room."""
    rooms = [Room(script, name) for name in rooms_of(script)]
    for number in range(len(script.windows)):
        yield JoinedRecord([room.replay(number, mode) for room in rooms])
