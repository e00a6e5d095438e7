"""The timeline of a window: its line and the planned times of its runs, followed along the history
of a record.

It is written from the rules alone. Times are in ms. What stands before a run that is placed follows
from the history, and hangs on nobody's grip, so of each placing one place is right.

`plan_by_places` plans by one place in the line for all devices of a run, to see what sets of items
gain.
"""
from __future__ import annotations

from collections.abc import Collection, Iterable, Sequence, Set
from typing import Any

Command = dict[str, Any]  # as a script has it
Item = int | str  # of the line: a run, or the device of a failure or a restart
Plan = dict[str, tuple[int, int]]  # of each device from when and to when
ESTIMATE = 100
GREATEST = 2**64 - 1


class Timeline:
    """The items of the line are numbers of runs, and names of devices for their failures and
    restarts.
    """

    def __init__(self, runs: list[list[Command]], follows: list[int | None]) -> None:
        self.commands = dict(enumerate(runs, 1))
        self.uses = {r: used_by(commands) for r, commands in self.commands.items()}
        self.leaders = dict(enumerate(follows, 1))
        self.answers: dict[int, list[str]] = {r: [] for r in self.commands}
        self.line, self.plans = list[Item](), dict[int, Plan]()
        self.live, self.doomed, self.committed = set[int](), set[int](), set[int]()

    def follow(self, entry: list[str]) -> None:
        """Goes one entry further."""
        kind, first = entry[0], entry[1]
        if kind == "placed":
            self.place(int(first), int(entry[3]), int(entry[5]))
        elif kind == "did":
            self.answers[int(first.split(".")[0])].append(entry[2])
        elif kind in ("fell", "rose"):
            self.line.insert(self.event_place(first), first)
        elif kind == "doomed":
            self.doomed.add(int(first))
        elif kind == "ended":
            r = int(first)
            self.live.remove(r)
            if entry[2] == "committed":
                self.committed.add(r)
            else:
                self.line.remove(r)

    def place(self, r: int, place: int, moment: int) -> None:
        """The items that are to stand before the run come to the front; it is planned behind
        them.
        """
        before, _ = self.places_before(r, moment)
        self.plans[r] = self.plan(r, self.items(before), moment)
        self.line = self.items(before) + self.items(set(range(len(self.line))) - set(before))
        self.line.insert(place, r)
        self.live.add(r)

    def items(self, places: Iterable[int]) -> list[Item]:
        return [self.line[k] for k in sorted(places)]

    # What a run does on a device

    def answers_on(self, r: int, device: str) -> list[str]:
        """What the run was answered on the device."""
        return [
            self.answers[r][c] for c in self.uses[r].get(device, []) if c < len(self.answers[r])
        ]

    def is_touched(self, r: int, device: str) -> bool:
        """Whether a command of the run on the device is answered, and not skipped."""
        return any(answer != "/" for answer in self.answers_on(r, device))

    def is_open(self, r: int, device: str) -> bool:
        """Whether one is not."""
        return device in self.uses[r] and self.uses[r][device][-1] >= len(self.answers[r])

    def has_passed(self, r: int, device: str) -> bool:
        """Whether all commands of the run on the device were skipped."""
        return not self.is_open(r, device) and not self.is_touched(r, device)

    def writes(self, r: int, device: str) -> bool:
        return any(
            self.commands[r][c]["do"] in ("set", "store") for c in self.uses[r].get(device, [])
        )

    def has_written(self, r: int, device: str) -> bool:
        return "." in self.answers_on(r, device)

    def reads_first(self, r: int, device: str) -> bool:
        """Whether a command on the device reads before one without a guard writes."""
        for c in self.uses[r][device]:
            if self.commands[r][c]["do"] in ("check", "load"):
                return True
            if "when" not in self.commands[r][c]:
                return False
        return False

    def devices(self, item: Item) -> Set[str]:
        """The devices of a run's commands, or that of a failure or restart."""
        return {item} if isinstance(item, str) else self.uses[item].keys()

    def event_place(self, device: str) -> int:
        """Before the first live run that is not doomed and has yet to touch the device."""
        for k, x in enumerate(self.line):
            if (
                isinstance(x, int)
                and x in self.live
                and x not in self.doomed
                and self.is_open(x, device)
                and not self.is_touched(x, device)
            ):
                return k
        return len(self.line)

    # Planned times

    def whole_end(self, x: int) -> int:
        behind = [
            y
            for y in self.line[self.line.index(x) + 1 :]
            if isinstance(y, int) and y in self.committed
        ]
        counted = [
            d
            for d in self.plans[x]
            if not self.has_passed(x, d) and not any(self.has_written(y, d) for y in behind)
        ]
        return max((self.plans[x][d][1] for d in counted), default=0)

    def wait_for(self, free: dict[str, int], r: int, x: Item) -> None:
        """Raises when the run's devices are free by what the item has of them."""
        if isinstance(x, int) and x in self.live:
            for device in free.keys() & self.uses[x].keys():
                if x not in self.doomed and self.is_open(x, device):
                    free[device] = max(free[device], self.plans[x][device][1])
                if self.reads_first(r, device) and self.writes(x, device):
                    free[device] = max(free[device], self.whole_end(x))

    def plan(self, r: int, front: Sequence[Item], moment: int) -> Plan:
        """From when and to when the run is to use each device, behind these items."""
        free = dict.fromkeys(self.uses[r], 0)
        for x in front:
            self.wait_for(free, r, x)
        return self.plan_from(r, free, moment)

    def plan_from(self, r: int, free: dict[str, int], moment: int) -> Plan:
        planned: Plan = {}
        for c in self.commands[r]:
            start = max(moment, free[c["on"]])
            moment = min(start + c.get("ms", ESTIMATE), GREATEST)
            planned[c["on"]] = (planned.get(c["on"], (start,))[0], moment)
        return planned

    # What stands before a run, as places in the line

    def bound(self, r: int) -> set[int]:
        """What has been answered on a device of the run or may be next, is its leader, or stands
        before the first live run.
        """
        own = self.devices(r)
        places = set(
            range(next((k for k, x in enumerate(self.line) if x in self.live), len(self.line)))
        )
        for k, x in enumerate(self.line):
            if isinstance(x, str):
                is_bound = x in own
            else:
                is_leader = x == self.leaders[r] and x in self.committed
                is_bound = (
                    is_leader or self.may_touch(x, own) or any(self.is_touched(x, d) for d in own)
                )
            places |= {k} if is_bound else set()
        return places

    def may_touch(self, x: int, devices: Collection[str]) -> bool:
        """Whether the next command of a live run is on one of the devices."""
        following = self.commands[x][len(self.answers[x]) :][:1]
        return x in self.live and any(c["on"] in devices for c in following)

    def closed(self, places: set[int]) -> set[int]:
        """These places, and with each those of the items before it that share a device with it, or
        are its leader or follower.
        """
        taken, used, runs = set[int](), set[str](), set[Item | None]()
        leaders = set[Item | None]()
        for k, item in reversed(list(enumerate(self.line))):
            if (
                k in places
                or used & self.devices(item)
                or item in leaders
                or self.leader(item) in runs
            ):
                taken.add(k)
                used |= self.devices(item)
                runs.add(item)
                leaders.add(self.leader(item))
        return taken

    def leader(self, item: Item) -> int | None:
        """The run that an item follows."""
        return self.leaders.get(item) if isinstance(item, int) else None

    def places_before(self, r: int, moment: int) -> tuple[list[int], int]:
        """The places of the items that the timeline puts before the run, and how many plans that
        took.
        """
        taken, plans = self.closed(self.bound(r)), 0
        while True:
            plans += 1
            planned = self.plan(r, self.items(taken), moment)
            early = {
                k
                for k, x in enumerate(self.line)
                if k not in taken and isinstance(x, int) and self.begins_within(x, planned)
            }
            if not early:
                return sorted(taken), plans
            taken = self.closed(taken | early)

    def begins_within(self, x: int, planned: Plan) -> bool:
        """Whether the run is planned to begin on a device, and has not passed it, before it is free
        of what is planned so.
        """
        if x not in self.live:
            return False
        both = [d for d in planned if d in self.plans[x] and not self.has_passed(x, d)]
        return any(self.plans[x][d][0] < planned[d][1] for d in both)

    def is_place(self, r: int, place: int, moment: int) -> bool:
        """Whether the run may have been placed there at this moment."""
        return place == len(self.places_before(r, moment)[0])

    # One place for all devices

    def plan_by_places(self, r: int, moment: int) -> Plan:
        """The plan behind the first place that fits, from what has to stand before the run on: so
        one gap serves all its devices.
        """
        free, first = dict.fromkeys(self.uses[r], 0), max(self.bound(r), default=-1) + 1
        place = 0
        while True:
            planned = self.plan_from(r, free, moment)
            if place >= first and all(
                self.first_start(d, self.line[place:]) >= end for d, (_, end) in planned.items()
            ):
                return planned
            self.wait_for(free, r, self.line[place])
            place += 1

    def first_start(self, device: str, items: Sequence[Item]) -> int:
        """When the first live run among the items that uses the device is planned to begin
        there.
        """
        users = [
            x
            for x in items
            if isinstance(x, int)
            and x in self.live
            and device in self.uses[x]
            and not self.has_passed(x, device)
        ]
        return self.plans[users[0]][device][0] if users else GREATEST


def used_by(commands: list[Command]) -> dict[str, list[int]]:
    """The numbers of the commands on each device."""
    used: dict[str, list[int]] = {}
    for number, command in enumerate(commands):
        used.setdefault(command["on"], []).append(number)
    return used
