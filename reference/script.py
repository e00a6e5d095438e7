"""The reading of a script: its devices, routines and windows, or the first refusal on the way.

The steps of the walk stand here in their order; docs/FORMATS.md has the tables.
"""
from __future__ import annotations

import re
from collections.abc import Callable, Container
from typing import Any, NamedTuple, TypeVar

from .json_text import NotJson, read_json
from .serial import Command, Guard, Kind
from .times import read_time

VERSIONS = 1, 2  # in the second a command may have a guard
LIMITS = {
    "bytes": 4_194_304,
    "devices": 256,
    "states": 256,
    "downs": 16,
    "routines": 1024,
    "commands": 64,
    "ms": 3_600_000,
    "windows": 288,
    "probes": 100,
    "turns": 4096,
    "runs": 64,
}
NAME = re.compile(r"[a-z][a-z0-9_-]{0,31}", re.ASCII)
Found = TypeVar("Found")


class Refusal(Exception):
    """Why a script is refused, in the words of the line on standard error."""


class DeviceText(NamedTuple):
    name: str
    kind: Kind
    states: list[str]  # none for a range
    start: int
    downs: list[tuple[int, int]]

    def value_of(self, state: str | int) -> int | None:
        """The value that a member of the script means, or none."""
        if isinstance(state, str):
            return self.states.index(state) if state in self.states else None
        return state if not self.states and self.kind.has_value(state) else None

    def word(self, value: int) -> str:
        """How a record prints the value."""
        return self.states[value] if self.states else str(value)


class RoutineText(NamedTuple):
    name: str
    commands: list[Command]


class RunText(NamedTuple):
    routine: int
    follows: int | None


class WindowText(NamedTuple):
    at: tuple[int, ...]
    seed: int
    probes: int
    turns: list[int]
    runs: list[RunText]


class Script(NamedTuple):
    devices: list[DeviceText]
    routines: list[RoutineText]
    windows: list[WindowText]


Test = Callable[[object], bool]  # of a value's type
Types = dict[str, Test]  # of members, by their names
Members = tuple[Types, Types]  # those that must be there, and those that may


# The types of members.


def is_whole(value: object, bits: int = 32) -> bool:
    return isinstance(value, int) and not isinstance(value, bool) and 0 <= value < 2**bits


def is_long(value: object) -> bool:
    return is_whole(value, 64)


def is_text(value: object) -> bool:
    return isinstance(value, str)


def is_list(value: object) -> bool:
    return isinstance(value, list)


def is_truth(value: object) -> bool:
    return isinstance(value, bool)


def is_state(value: object) -> bool:
    return is_text(value) or is_whole(value)


def is_guard(value: object) -> bool:
    """An object with one member, which has a whole number."""
    return (
        isinstance(value, dict)
        and len(value) == 1
        and any(is_whole(value.get(word)) for word in ("is", "below"))
    )


# Each object's members: those that must be there, and those that may.
DAY: Members = {
    "safehome": is_long,
    "devices": is_list,
    "routines": is_list,
    "windows": is_list,
}, {}
DEVICE: Members = {"name": is_text, "start": is_state}, {
    "states": is_list,
    "low": is_whole,
    "high": is_whole,
    "down": is_list,
}
ROUTINE: Members = {"name": is_text, "commands": is_list}, {}
COMMAND: Members = {"on": is_text, "do": is_text}, {
    "to": is_state,
    "must": is_truth,
    "ms": is_whole,
    "takes": is_whole,
}
GUARDED: Members = COMMAND[0], {**COMMAND[1], "when": is_guard}
WINDOW: Members = {"at": is_text, "runs": is_list}, {
    "turns": is_list,
    "seed": is_long,
    "probes": is_whole,
}
RUN: Members = {"routine": is_text}, {"follows": is_whole}


def refuse(true: object, text: str) -> None:
    if true:
        raise Refusal(text)


def found(value: Found | None, text: str) -> Found:
    """The value, which has to be there."""
    if value is None:
        raise Refusal(text)
    return value


def need_shape(value: Any, members: Members, spot: str) -> None:
    required, optional = members
    refuse(not isinstance(value, dict) or not required.keys() <= value.keys(), f"shape {spot}")
    for name, member in value.items():
        has_type = required.get(name) or optional.get(name)
        refuse(has_type is None or not has_type(member), f"shape {spot}")


def need_within(kind: str, count: int, limit: int | None = None) -> None:
    limit = limit or LIMITS[kind]
    refuse(count > limit, f"too many {kind} {count} of {limit}")


def need_new_name(name: str, names: Container[str], spot: str) -> None:
    refuse(NAME.fullmatch(name) is None, f"bad name {spot}")
    refuse(name in names, f"double name {spot}")


# The walk.


def read_states(states: list[Any], spot: str) -> list[str]:
    refuse(not states, f"shape {spot}")
    need_within("states", len(states))
    read: list[str] = []
    for state in states:
        refuse(not is_text(state), f"shape {spot}")
        need_new_name(state, read, spot)
        read.append(state)
    return read


def read_down(pair: Any, spot: str) -> tuple[int, int]:
    refuse(
        not (
            is_list(pair) and len(pair) == 2 and all(map(is_whole, pair)) and 1 <= pair[0] < pair[1]
        ),
        f"shape {spot}",
    )
    return pair[0], pair[1]


def read_device(i: int, value: Any, names: dict[str, int]) -> DeviceText:
    spot = f"device {i}"
    need_shape(value, DEVICE, spot)
    has_states, has_bound, has_bounds = (
        "states" in value,
        {"low", "high"} & value.keys(),
        {"low", "high"} <= value.keys(),
    )
    refuse(has_bound if has_states else not has_bounds, f"shape {spot}")
    need_new_name(value["name"], names, spot)
    if has_states:
        states = read_states(value["states"], spot)
        kind = Kind(0, len(states) - 1)
    else:
        states, kind = list[str](), Kind(value["low"], value["high"])
        refuse(kind.low > kind.high, f"bad state {spot}")
    device = DeviceText(value["name"], kind, states, 0, [])
    start = found(device.value_of(value["start"]), f"bad state {spot}")
    need_within("downs", len(value.get("down", [])))
    downs = [read_down(pair, f"down {i}.{j}") for j, pair in enumerate(value.get("down", []), 1)]
    return device._replace(start=start, downs=downs)


def read_guard(value: Any) -> Guard:
    [(word, number)] = value.items()
    return Guard(word, number)


def read_command(
    spot: str, value: Any, version: int, devices: list[DeviceText], numbers: dict[str, int]
) -> Command:
    need_shape(value, COMMAND if version == 1 else GUARDED, spot)
    job = value["do"]
    refuse(job not in ("set", "check", "load", "store"), f"shape {spot}")
    refuse(("to" in value) != (job in ("set", "check")), f"shape {spot}")
    device = found(numbers.get(value["on"]), f"unknown name {spot}")
    to = devices[device].value_of(value["to"]) if "to" in value else None
    refuse("to" in value and to is None, f"bad state {spot}")
    ms = value.get("ms", 100)
    takes = value.get("takes", ms)
    need_within("ms", ms)
    need_within("ms", takes)
    when = read_guard(value["when"]) if "when" in value else None
    return Command(device, job, to, value.get("must", True), ms, takes, when)


def read_routine(
    i: int,
    value: Any,
    version: int,
    names: dict[str, int],
    devices: list[DeviceText],
    numbers: dict[str, int],
) -> RoutineText:
    spot = f"routine {i}"
    need_shape(value, ROUTINE, spot)
    need_new_name(value["name"], names, spot)
    refuse(not value["commands"], f"shape {spot}")
    need_within("commands", len(value["commands"]))
    commands = [
        read_command(f"command {i}.{j}", command, version, devices, numbers)
        for j, command in enumerate(value["commands"], 1)
    ]
    return RoutineText(value["name"], commands)


def read_run(i: int, j: int, value: Any, routines: dict[str, int]) -> RunText:
    spot = f"run {i}.{j}"
    need_shape(value, RUN, spot)
    routine = found(routines.get(value["routine"]), f"unknown name {spot}")
    follows = value.get("follows")
    refuse(follows is not None and not 1 <= follows < j, f"bad follow {spot}")
    return RunText(routine, follows)


def read_window(
    i: int, value: Any, before: tuple[int, ...] | None, routines: dict[str, int]
) -> WindowText:
    spot = f"window {i}"
    need_shape(value, WINDOW, spot)
    at = found(read_time(value["at"]), f"bad time {spot}")
    refuse(before is not None and at <= before, f"bad time {spot}")
    turns, runs, probes = value.get("turns", []), value["runs"], value.get("probes", 0)
    need_within("probes", probes)
    need_within("turns", len(turns))
    need_within("runs", len(runs))
    for j, turn in enumerate(turns, 1):
        refuse(not is_whole(turn), f"shape {spot}")
        refuse(turn > len(runs), f"bad turn turn {i}.{j}")
    read = [read_run(i, j, run, routines) for j, run in enumerate(runs, 1)]
    return WindowText(at, value.get("seed", 1), probes, turns, read)


def read_script(data: bytes) -> Script:
    need_within("bytes", min(len(data), LIMITS["bytes"] + 1))
    try:
        top = read_json(data)
    except NotJson:
        raise Refusal("not json") from None
    return read_value(top)


def read_value(top: Any) -> Script:
    """The reading of a JSON value."""
    need_shape(top, DAY, "top")
    version = top["safehome"]
    refuse(version not in VERSIONS, f"bad version {version}")
    for kind in ("devices", "routines", "windows"):
        need_within(kind, len(top[kind]))
    script = Script([], [], [])
    numbers, routines = dict[str, int](), dict[str, int]()  # by name
    for i, value in enumerate(top["devices"], 1):
        script.devices.append(read_device(i, value, numbers))
        numbers[value["name"]] = i - 1
    for i, value in enumerate(top["routines"], 1):
        script.routines.append(read_routine(i, value, version, routines, script.devices, numbers))
        routines[value["name"]] = i - 1
    for i, value in enumerate(top["windows"], 1):
        before = script.windows[-1].at if script.windows else None
        script.windows.append(read_window(i, value, before, routines))
    return script
