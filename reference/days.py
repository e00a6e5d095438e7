"""Days that are drawn: small ones with much in them, some of them in rooms, the same with turns and
times for a replay, with guards as scripts of version 2, spoiled ones, and trials.

What draws the first three is a `random.Random`, so that a seed gives the same days again.
"""
from __future__ import annotations

import copy
import json
import random
from collections.abc import Iterator
from typing import Any

from .history import Mode
from .replay import Draws
from .script import DeviceText, RoutineText, RunText, Script, WindowText
from .serial import Command, Kind

Json = dict[str, Any]

TRIAL_MODE = Mode("ev", "fcfs")
TRIAL_DEVICES, TRIAL_ROUTINES, TRIAL_COMMANDS, TRIAL_VALUES = 32, 64, 4, 1000
TRIAL_DAY, TRIAL_MINUTES = (2021, 4, 26), 5


# Small days


def device(draw: random.Random, d: int) -> Json:
    made: Json = {"name": f"d{d}"}
    if draw.random() < 0.5:
        states = [f"s{v}" for v in range(draw.randint(1, 3))]
        made.update(states=states, start=draw.choice(states))
    else:
        low = draw.randint(0, 2)
        high = low + draw.randint(0, 3)
        made.update(low=low, high=high, start=draw.randint(low, high))
    if draw.random() < 0.5:
        downs, call = [], 1
        for _ in range(draw.randint(1, 3)):
            call += draw.randint(0, 3)
            downs.append([call, call + draw.choice([1, 1, 2, 3, 40])])
            call = downs[-1][1]
        made["down"] = downs
    return made


def values(device: Json) -> list[Any]:
    states: list[Any] = device.get("states") or list(range(device["low"], device["high"] + 1))
    return states


def command(draw: random.Random, devices: list[Json]) -> Json:
    on = draw.choice(devices)
    made: Json = {
        "on": on["name"],
        "do": draw.choice(["set", "set", "set", "check", "load", "store"]),
    }
    if made["do"] in ("set", "check"):
        made["to"] = draw.choice(values(on))
    if draw.random() < 0.4:
        made["must"] = False
    if draw.random() < 0.6:
        made["ms"] = draw.choice([0, 0, 1, 5])
    return made


def run(draw: random.Random, routines: list[Json], before: int) -> Json:
    made: Json = {"routine": draw.choice(routines)["name"]}
    if before and draw.random() < 0.2:
        made["follows"] = draw.randint(1, before)
    return made


def day(draw: random.Random) -> Json:
    devices = [device(draw, d) for d in range(draw.randint(1, 4))]
    routines = [
        {"name": f"r{r}", "commands": [command(draw, devices) for _ in range(draw.randint(1, 5))]}
        for r in range(draw.randint(1, 4))
    ]
    windows = [
        {
            "at": f"2021-04-26T07:0{k}:00",
            "probes": draw.choice([0, 1, 2, 5]),
            "runs": [run(draw, routines, before) for before in range(draw.randint(1, 6))],
        }
        for k in range(draw.randint(1, 3))
    ]
    return {"safehome": 1, "devices": devices, "routines": routines, "windows": windows}


def day_for(draw: random.Random, scheduler: str, version: int = 1) -> Json:
    """A small day with turns and times; half of those for the timeline are such as it rearranges
    its line for.
    """
    made = (
        gap_day(draw)
        if scheduler == "timeline" and draw.random() < 0.5
        else with_picks(draw, day(draw))
    )
    return made if version == 1 else guarded(draw, made)


def gap_command(draw: random.Random, device: Json) -> Json:
    """A command with an estimate, which it does not keep as a rule."""
    made: Json = {
        "on": device["name"],
        "do": draw.choice(["set", "set", "set", "store", "load", "check"]),
    }
    if made["do"] in ("set", "check"):
        made["to"] = draw.choice(values(device))
    if draw.random() < 0.3:
        made["must"] = False
    made["ms"] = draw.choice([0, 20, 100, 100, 500, 2000])
    if draw.random() < 0.6:
        made["takes"] = draw.choice([0, 10, 100, 300])
    return made


def gap_turns(draw: random.Random, actors: int) -> list[int]:
    """Most runs come before the others have gone far."""
    turns = []
    for actor in range(1, actors + 1):
        turns += [actor, actor]
        if draw.random() < 0.4:
            turns += [draw.randint(0, actors) for _ in range(draw.randint(1, 5))]
    return turns + [draw.randint(0, actors) for _ in range(draw.choice([0, 10, 40]))]


def gap_day(draw: random.Random, windows: int = 1) -> Json:
    """A day of many small runs with estimates of all lengths, so that the timeline often rearranges
    its line for one.
    """
    devices = [device(draw, d) for d in range(draw.randint(3, 6))]
    for one in devices:
        if draw.random() < 0.5:
            one.pop("down", None)
    routines = []
    for r in range(draw.randint(4, 7)):
        used = draw.sample(devices, draw.choice([1, 2, 2, 2, 3]))
        used += [draw.choice(devices)] if draw.random() < 0.2 else []
        routines.append({"name": f"r{r}", "commands": [gap_command(draw, on) for on in used]})
    made = []
    for k in range(windows):
        runs = [run(draw, routines, before) for before in range(draw.randint(4, 8))]
        made.append(
            {
                "at": f"2021-04-26T07:0{k}:00",
                "seed": draw.getrandbits(32),
                "probes": draw.choice([0, 1, 2]),
                "turns": gap_turns(draw, len(runs)),
                "runs": runs,
            }
        )
    return {"safehome": 1, "devices": devices, "routines": routines, "windows": made}


def room_run(
    draw: random.Random,
    routines: list[Json],
    before: list[Json],
) -> Json:
    """A run that follows, if any, one of its own room, but for few."""
    made = run(draw, routines, 0)
    room = made["routine"].partition("_")[0]
    leaders = [
        r
        for r, earlier in enumerate(before, 1)
        if earlier["routine"].startswith(f"{room}_") or draw.random() < 0.01
    ]
    if leaders and draw.random() < 0.3:
        made["follows"] = draw.choice(leaders)
    return made


def room_day(draw: random.Random, most_rooms: int = 8) -> Json:
    """A day of at least two rooms, each with routines of its own. In some days a run crosses
    rooms.
    """
    homes = {
        f"r{r}": [device(draw, d) for d in range(draw.randint(1, 3))]
        for r in range(draw.randint(2, most_rooms))
    }
    for room, devices in homes.items():
        for made in devices:
            made["name"] = f"{room}_{made['name']}"
    devices = [made for devices in homes.values() for made in devices]
    draw.shuffle(devices)
    routines = []
    for room, own in homes.items():
        for r in range(draw.randint(1, 3)):
            commands = [command(draw, own) for _ in range(draw.randint(1, 5))]
            if draw.random() < 0.01:
                commands.append(command(draw, devices))
            routines.append({"name": f"{room}_{r}", "commands": commands})
    windows = []
    for k in range(draw.randint(1, 4)):
        runs = list[Json]()
        for _ in range(draw.randint(1, 3 * len(homes))):
            runs.append(room_run(draw, routines, runs))
        windows.append(
            {"at": f"2021-04-26T07:0{k}:00", "probes": draw.choice([0, 1, 2, 5]), "runs": runs}
        )
    return {"safehome": 1, "devices": devices, "routines": routines, "windows": windows}


def with_picks(draw: random.Random, script: Json) -> Json:
    """The script with turns, seeds, and commands that take another time than is estimated."""
    for routine in script["routines"]:
        for command in routine["commands"]:
            if draw.random() < 0.3:
                command["takes"] = draw.choice([0, 1, 20, 150, 3_000, 12_000])
    for window in script["windows"]:
        actors = len(window["runs"])
        if draw.random() < 0.7:
            window["turns"] = [draw.randint(0, actors) for _ in range(draw.randint(0, 12 * actors))]
        if draw.random() < 0.7:
            window["seed"] = draw.choice([0, 7, 2**64 - 1, draw.getrandbits(64)])
    return script


def guarded(draw: random.Random, script: Json) -> Json:
    """The script as one of version 2: many commands have guards, and before these often stands a
    load.
    """
    script["safehome"] = 2
    for routine in script["routines"]:
        commands = routine["commands"]
        if draw.random() < 0.5:
            commands.insert(
                0, {"on": draw.choice(commands)["on"], "do": "load", "must": draw.random() < 0.5}
            )
        for command in commands:
            if draw.random() < 0.4:
                command["when"] = {draw.choice(["is", "below"]): draw.choice([0, 0, 1, 1, 2, 3])}
    return script


# Spoiled days

ODD: list[Any] = [
    None,
    True,
    0,
    1,
    -1,
    1.5,
    2**32 - 1,
    2**32,
    2**64,
    "",
    "off",
    "d0",
    "D0",
    "2021-04-26T07:00:00Z",
    "2021-04-26",
    [],
    [[]],
    [0],
    {},
    [3, 3],
    256,
    101,
    3_600_001,
]
MEMBERS = [
    "safehome",
    "name",
    "low",
    "states",
    "down",
    "to",
    "must",
    "ms",
    "takes",
    "do",
    "on",
    "turns",
    "seed",
    "probes",
    "follows",
    "runs",
    "routine",
    "at",
    "other",
]
ODD_GUARDS: list[Any] = [
    {"is": 2**32 - 1},
    {"below": 2**32},
    {"is": 0, "below": 1},
    {"above": 1},
    {"is": "s0"},
    {"is": 1.0},
    {"below": -1},
]


def places_in(value: Any) -> Iterator[Json | list[Any]]:
    """Each object and list in the value, itself too."""
    if isinstance(value, (dict, list)):
        yield value
        for part in value.values() if isinstance(value, dict) else value:
            yield from places_in(part)


def spoiled(draw: random.Random, script: Json) -> str:
    """The text of the script with one thing changed, which is refused as a rule."""
    text = json.dumps(script)
    if draw.random() < 0.1:
        at = draw.randrange(len(text))
        return text[:at] + draw.choice(["", text[at + 1 :], "," + text[at:], "0" + text[at:]])
    script = copy.deepcopy(script)
    has_guards = script["safehome"] == 2
    place = draw.choice(list(places_in(script)))
    odd = copy.deepcopy(draw.choice(ODD + ODD_GUARDS if has_guards else ODD))
    if isinstance(place, list):
        place.insert(
            draw.randint(0, len(place)),
            odd if draw.random() < 0.5 or not place else copy.deepcopy(draw.choice(place)),
        )
    elif draw.random() < 0.3:
        del place[draw.choice(list(place))]
    else:
        place[
            draw.choice(list(place) if draw.random() < 0.6 else MEMBERS + ["when"] * has_guards)
        ] = odd
    return json.dumps(script)


def damaged(draw: random.Random, record: str) -> str:
    """The record with one word changed, taken out or put in, so that as a rule it does not
    agree.
    """
    lines = [line.split(" ") for line in record.split("\n")]
    line = draw.choice(lines)
    at = draw.randrange(len(line))
    change = draw.randrange(4)
    if change == 0:
        del line[at]
    elif change == 1:
        line[at] += draw.choice(["!", "0", " ", "\n", "\n# "])
    else:
        line[at : at + (change == 2)] = [draw.choice(draw.choice(lines))]
    return "\n".join(map(" ".join, lines))


# Trials


def trial_command(draws: Draws) -> Command:
    device, job = draws.below(TRIAL_DEVICES), draws.below(4)
    if job == 0:
        return Command(device, "set", draws.below(TRIAL_VALUES))
    if job == 1:
        return Command(device, "check", draws.below(TRIAL_VALUES), must=False)
    return Command(device, "load" if job == 2 else "store", None)


def trial(windows: int) -> Script:
    """The day of a trial of so many windows. It is drawn by the generator of picks, from their
    number.
    """
    draws = Draws(windows)
    kind = Kind(0, TRIAL_VALUES - 1)
    devices = [DeviceText(f"d{d:02}", kind, [], 0, []) for d in range(TRIAL_DEVICES)]
    routines = [
        RoutineText(f"r{r:02}", [trial_command(draws) for _ in range(TRIAL_COMMANDS)])
        for r in range(TRIAL_ROUTINES)
    ]
    made = []
    for k in range(windows):
        hour, minute = divmod(TRIAL_MINUTES * k, 60)
        runs = [RunText(draws.below(TRIAL_ROUTINES), None) for _ in range(64)]
        made.append(WindowText((*TRIAL_DAY, hour, minute, 0), k + 1, 0, [], runs))
    return Script(devices, routines, made)
